#!/usr/bin/env bash
# docs/PROMISES.md is held to the repository: it names every public function and no other, as a call or as a building block; it names every must-fail edit under
# the functions that the edit's first line has and no other, two or more of each, and in its map every file is there and has the names that the map gives beside
# it. The crate `promises` ties the same functions, each to its own contract, and promises each tie once, under the function's name; what else it states is on
# the contract of its function `hold`. A walk is an iterator, whose `next` is no public function: it is tied by the law that it gives. What C links,
# `exports_c`, has the functions of `exports` once more, under their names, with their parameters, replies and clauses: no more and no fewer.
set -u
cd "$(dirname "${BASH_SOURCE[0]}")/.." || exit 1
python3 - <<'PYTHON'
import pathlib
import re
import sys

text = pathlib.Path('docs/PROMISES.md').read_text()
promised, _, rules = text.partition('# The map')
wrong = []


def compare(what, there, named):
    wrong.extend(f'{what} {x} is not named' for x in sorted(there - named))
    wrong.extend(f'{what} {x} is named and not there' for x in sorted(named - there))


def public(crate):
    """The public functions of a crate, each by its whole path."""
    root = pathlib.Path('crates', crate, 'src/lib.rt')
    if not root.exists():
        return
    modules = re.findall(r'^pub mod (\w+);', root.read_text(), re.M)
    for path, prefix in [(root, crate)] + [(root.with_name(f'{m}.rt'), f'{crate}::{m}') for m in modules]:
        owner = ''
        for line in path.read_text().splitlines():
            if line.startswith(('impl ', '}')):
                owner = line.split()[1] + '::' if line.startswith('impl ') else ''
            if found := re.match(r'\s*pub (?:extern "C" )?fn (\w+)', line):
                yield f'{prefix}::{owner}{found.group(1)}'


def contracts(crate):
    """The public functions of a crate, each with its file, parameters, reply and clauses, in one line."""
    root = pathlib.Path('crates', crate, 'src/lib.rt')
    for path in [root] + [root.with_name(f'{m}.rt') for m in re.findall(r'^pub mod (\w+);', root.read_text(), re.M)]:
        for found in re.finditer(r'^pub (?:extern "C" )?fn (\w+)(.*?)^\{$', path.read_text(), re.M | re.S):
            # the layout puts a long row of parameters on lines of their own, with a comma after the last
            yield f'{path.stem}::{found.group(1)}', re.sub(r'(?<=\() |,? (?=\))', '', ' '.join(found.group(2).split()))


# an edit: the functions that it is of, or the crate of laws, and what it claims, in its first line; and what it changes, in those below
FIRST = re.compile(r'# (\w[\w:]*(?:, \w[\w:]*)*): (\S.*)')


def edit_of(path):
    """The functions of which an edit is."""
    lines = path.read_text().splitlines()
    if not (first := FIRST.fullmatch(lines[0]) if lines else None):
        wrong.append(f'{path}: its first line is not "# crate::function: what it claims"')
        return set()
    wrong.extend(f'{path}: what does this line say? {line}' for line in lines[1:] if line and not re.match(r'(?:file|old|new|# apart):', line))
    return set(first.group(1).split(', '))


# an item goes on in the lines below it that are indented
items = re.findall(r'^(?:\*\*|- ).*(?:\n  .*)*', text, re.M)
functions = {f for crate in pathlib.Path('crates').iterdir() if crate.name != 'exports_c' for f in public(crate.name)}
# each function that C links is one of `exports`, and says the same
for_c, rust = dict(contracts('exports_c')), dict(contracts('exports'))
compare('call for C', set(rust), set(for_c))
wrong.extend(f'exports_c {x} says other than that of exports' for x in sorted(set(rust) & set(for_c)) if rust[x] != for_c[x])
wrong.extend(f'{crate} has {len(read)} contracts that are read' for crate, read in (('exports', rust), ('exports_c', for_c)) if len(read) != len(set(public(crate))))
# what reads or writes a descriptor or a file, or takes the program's arguments, has no equation
descriptors = {'program_reading::take', 'program_files::arguments', 'program_files::file', 'program_files::hear', 'program_output::complain'}
descriptors |= {f'program_output::Printer::{name}' for name in ('flush', 'text', 'number', 'refused')}
# and what has no answer at all, but states the theorems
descriptors |= {'promises::hold'}
wrong.extend(f'function {x} is an exception and not there' for x in sorted(descriptors - functions))
kinds = {name: kind for name, kind in re.findall(r'^\*\*`([\w:]+)`\*\*, (call|block):', promised, re.M)}
compare('function', functions - descriptors, set(kinds))

# a tie: the function, its name in the family, its kind, and the description, which must cite the function's own signature and claims
TIE = r'^-- `([\w:]+)`.*\n(?:--.*\n)*abbrev pub (\w+) : (Call|Function)\n((?:.+\n)+)'
# and of a walk, which must cite the law of its own `next`
TURN = r'^-- `([\w:]+)`.*\n(?:--.*\n)*abbrev pub (\w+) : Walk\n((?:.+\n)+)'
demand = pathlib.Path('crates/promises/specs/Demand1.antt').read_text()
families = dict(re.findall(r'^use .*\.calls\.(\w+) as (\w+)$', demand, re.M))
ties, described, walks = {}, {}, {}
for path in sorted(pathlib.Path('crates/promises/specs/calls').glob('*.antt')):
    # what stands for the contract and the claims of a function, by the name that the file gives it
    modules = {}
    for crate, under, name in re.findall(r'^use Rattle\.(\w+)\.specs\.contracts\.([\w.]+) as (\w+)$', path.read_text(), re.M):
        modules.setdefault(name, []).append(('contract', crate, under))
    for crate, under, name in re.findall(r'^use Rattle\.(\w+)\.proofs\.([\w.]+)\.Reads as (\w+)$', path.read_text(), re.M):
        modules.setdefault(name, []).append(('claims', crate, under))
    wrong.extend(f'{path} has {name} more than once' for name, of in modules.items() if len(of) != 1)
    for function, name, kind, description in re.findall(TIE, path.read_text(), re.M):
        ties[function] = 'call' if kind == 'Call' else 'block'
        described[f'{families.get(path.stem)}.{name}'] = function
        crate, *rest = function.split('::')
        own = [(what, crate, '.'.join(rest)) for what in ('contract', 'claims')]
        cited = re.findall(r'(?<![\w.])([\w.]*?)\.?\b(ended|Asked|Post)\b', description)
        if [word for _, word in cited] != ['ended', 'Asked', 'Post'] or [modules.get(by) for by, _ in cited] != [[own[0]], [own[1]], [own[1]]]:
            wrong.append(f'{function} is tied to {", ".join(f"{by}.{word} of {modules.get(by)}" for by, word in cited)}')
    for function, name, description in re.findall(TURN, path.read_text(), re.M):
        walks[function] = f'{families.get(path.stem)}.{name}'
        crate, module, walk, _ = function.split('::')
        laws = re.findall(r'^ +gives = (\w+)\.ghosts\.next_gives;$', description, re.M)
        if [modules.get(by) for by in laws] != [[('contract', crate, f'{module}.{walk}Iterator.TheImpl')]]:
            wrong.append(f'{function} is tied to {", ".join(f"{by} of {modules.get(by)}" for by in laws)}')
    # and nothing else in the file gives another meaning to these names
    wrong.extend(f'{path} makes its own {name}' for name in re.findall(r'^ *(?:abbrev )?(?:pub )?(\w+) :', path.read_text(), re.M) if name in modules)
compare('tie of', functions - descriptors, set(ties))
wrong.extend(f'{name} is tied as a {ties[name]} and named as a {kinds[name]}' for name in sorted(set(ties) & set(kinds)) if ties[name] != kinds[name])

fields = re.findall(r'^  pub (\w+) : (?:Answers|Determined) (\S+)$', demand, re.M)
promises = [tie for _, tie in fields]
compare('promise of', set(described), set(promises))
wrong.extend(f'{tie} is promised more than once' for tie in sorted(set(promises)) if promises.count(tie) > 1)
for field, tie in fields:
    name = described.get(tie, '').split('::')[-1]
    if name not in field:
        wrong.append(f'{described[tie]} is promised as {field}')

turns = {f'{path.parts[1]}::{path.stem}::{walk}::next'
         for path in pathlib.Path('crates').glob('*/src/*.rt') for walk in re.findall(r'^impl\S* Iterator for (\w+)', path.read_text(), re.M)}
compare('walk', turns, set(walks))
turned = re.findall(r'^  pub (\w+) : Turned (\S+)$', demand, re.M)
compare('promise of', set(walks.values()), {tie for _, tie in turned})
wrong.extend(f'{tie} is promised as {field}' for field, tie in turned if field != tie.split('.')[-1])
# and the first demand is of all three kinds
first = demand[demand.index('pub record Demand1 '):].splitlines()[1:]
compare('part of the first demand', {'  pub calls : Calls', '  pub blocks : Total', '  pub walks : Walks'}, set(first))

# each statement is on the contract of `hold`, but for the first demand: no contract can name what it is said of, so it is held to have its proof
home = pathlib.Path('crates/promises')
held = re.search(r'^pub fn hold\(\)\n(.*?)^\{', (home / 'src/lib.rt').read_text(), re.M | re.S).group(1)
compare('statement', {path.stem for path in (home / 'specs').glob('*.antt')} - {'Lib', 'Ties', 'calls', 'Demand1'}, set(re.findall(r'^    ensures \w+ \{ (\w+) \}$', held, re.M)))
for proved, line in (('Lib', 'pub mod Demand1'), ('Demand1', 'pub demand-1 : Demand1'), ('Demand1', 'use Rattle.promises.specs.Demand1.{Calls, Total, Walks, Demand1}')):
    if line not in (home / f'proofs/{proved}.antt').read_text().splitlines():
        wrong.append(f'the first demand has no proof: proofs/{proved}.antt has no line "{line}"')

# under which functions an edit stands, by its own first line and here
edits = {path.parts[-3] + '/' + path.stem: edit_of(path) for path in sorted(pathlib.Path('crates').glob('*/must-fail/*.edit'))}
named, owner = {}, ''
for item in items:
    if item.startswith('**'):
        owner = re.match(r'\*\*`([\w:]+)', item).group(1)
    elif item.startswith('- edits:'):
        for edit in re.findall(r'`(\w+)`', item):
            named.setdefault(owner.split('::')[0] + '/' + edit, set()).add(owner)
compare('edit', set(edits), set(named))
for edit in sorted(edits.keys() & named.keys()):
    if edits[edit] != named[edit]:
        wrong.append(f'{edit} says that it is of {", ".join(sorted(edits[edit]))}, and is named under {", ".join(sorted(named[edit]))}')
wrong.extend(f'{x} has fewer than two edits' for x in sorted(functions - descriptors) if sum(x in of for of in edits.values()) < 2)

for item in re.findall(r'^- .*(?:\n  .*)*', rules, re.M):
    words = re.findall(r'`([^`\s]+)`', item)
    files = [pathlib.Path(w if w.split('/')[0] in ('docs', 'tests', 'crates') else 'crates/' + w) for w in words if '/' in w and not w.endswith('/')]
    for file in files:
        if not file.exists() and not file.with_suffix('.edit').exists():
            wrong.append(f'file {file} is in the map and not there')
    told = ''.join(f.read_text() for f in files if f.suffix in ('.antt', '.rt') and f.exists())
    if told:
        wrong.extend(f'{w} is not in {files}' for w in words if re.fullmatch(r'[\w-]+', w) and not re.search(rf'(?<![\w-]){w}(?![\w-])', told))

for line in wrong:
    print('promises:', line)
print(f'promises: {len(functions)} public functions, {len(edits)} edits, {len(wrong)} wrong')
sys.exit(bool(wrong))
PYTHON
