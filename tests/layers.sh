#!/usr/bin/env bash
# No crate with code stands on a crate of laws, directly or through others, so that nobody who builds a program has to prove laws first; and a crate of laws has
# no code. `promises` is one of these: all that it may have is a function with a contract and an empty body.
set -u
cd "$(dirname "${BASH_SOURCE[0]}")/.." || exit 1
python3 - <<'PYTHON'
import pathlib
import re
import sys

lines = [line.partition('#')[0] for line in pathlib.Path('crates.txt').read_text().splitlines()]
# before the colon stand a crate's name and, if it is one, 'staticlib'
needs = {name.split()[0]: below.split() for name, colon, below in (line.partition(':') for line in lines) if colon}
code = {crate for crate in needs if any(re.search(r'\bfn \w', path.read_text()) for path in pathlib.Path('crates', crate, 'src').glob('*.rt'))}
laws = {crate for crate in needs if crate.endswith('_laws') or crate == 'promises'}
# a function that does nothing states laws, and is no code
stated = ''.join(path.read_text() for path in pathlib.Path('crates/promises/src').rglob('*.rt'))
if re.findall(r'\bfn (\w+)', stated) == ['hold'] and re.search(r'^pub fn hold\(\)\n(?:    ensures \w+ \{ \w+ \}\n)+\{\s*\}\s*\Z', stated, re.M):
    code -= {'promises'}


def below(crate):
    """The crates that a crate stands on."""
    return {crate} | {lower for name in needs.get(crate, []) for lower in below(name)}


wrong = [f'{crate} is a crate of laws and has code' for crate in sorted(code & laws)]
wrong += [f'{crate} has code and stands on {law}' for crate in sorted(code - laws) for law in sorted(below(crate) & laws)]
for line in wrong:
    print('layers:', line)
print(f'layers: {len(code)} crates with code, {len(laws)} of laws, {len(wrong)} wrong')
sys.exit(1 if wrong or not code or not laws else 0)
PYTHON
