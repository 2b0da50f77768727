#!/usr/bin/env bash
# Every must-fail edit is refused at a fact that no longer holds: it keeps the connectives of the code, and the first error that `rt ci` tells of it is not that
# it does not compile, nor that a proof's text no longer fits the shape of the code. Reads what the gate's run of `rt ci` has said, which is of each edit the first
# 160 characters of that error; of one that an earlier run of the same files tried, `rt ci` says again what it said then.
set -u
cd "$(dirname "${BASH_SOURCE[0]}")/.." || exit 1
python3 - <<'PYTHON'
import pathlib
import re
import sys

# a relation or a connective where another one is expected: the code has another shape, which says nothing of its answer
RELATION = r'`(?:[^`\s]*\.)?(?:◌[≤<≡]◌|◌&&◌|◌\|\|◌|not|is(?:Le|Lt|Eq)|leb|ltb|eqb|nat_(?:le|lt|eq))`'
# a step of the proof's walk through the code
STEP = r'`[^`\s]*\.Lts\.[A-Z][\w-]*`'
UNFIT = [
    r'only because a proof file names',
    r'only by a limit of the prover',
    r'has no `[A-Z][\w-]*`',
    r'has no field `',
    r'binders?, but its type has room',
    r'expected type `[^`\s]*Need-[^`]*`,? but this has type `[^`\s]*Need-',
    r'not in scope',
    r'\d+ declarations? that depends? on',
    rf'one has {RELATION}\s*\(expected\)[^`]*(?:`[^`]*`[^`]*)?the other has {RELATION}\s*\(found\)',
    rf'one has {STEP}\s*\(expected\)[^`]*(?:`[^`]*`[^`]*)?the other has {STEP}\s*\(found\)',
]


def connectives(line):
    return re.findall(r' (&&|\|\||[&|]) ', line)


log = pathlib.Path('target/ci.log')
lines = log.read_text(errors='replace').splitlines() if log.exists() else []
said = dict(re.match(r'rt: must-fail (\S+?)(?:\.edit)?: (.*)', line).groups() for line in lines if re.match(r'rt: must-fail \S+: ', line))
wrong = [] if lines else [f'{log} is not there: bash .ci/run writes it']
edits = sorted(pathlib.Path('crates').glob('*/must-fail/*.edit'))
for edit in edits:
    name = f'{edit.parts[-3]}/{edit.stem}'
    old, new = ([connectives(line) for line in re.findall(rf'^{key}: (.*)', edit.read_text(), re.M)] for key in ('old', 'new'))
    if old != new:
        wrong.append(f'{name}: other connectives')
    text = said.get(name, 'nothing is told of it')
    # what the two types are when computed is what differs; how they are printed is not
    shown = text[max(text.find('computed as far as they go, the two'), 0):]
    if not text.startswith('refused, as it must be'):
        wrong.append(f'{name}: {text[:200]}')
    elif any(re.search(unfit, shown) for unfit in UNFIT):
        wrong.append(f'{name}: refused at the shape of the code: {text[:300]}')
for line in wrong:
    print('must-fail:', line)
print(f'must-fail: {len(edits)} edits, {len(wrong)} refused at no fact')
sys.exit(bool(wrong) or not edits)
PYTHON
