#!/usr/bin/env bash
# The items of docs/DECISIONS.md are numbered from 1 on, in order, and whatever the documents cite of them is there. An item is cited as "item 55" or "items 85
# and 122", so that it can be told from other numbers; a section by its name, behind a link to the page.
set -u
cd "$(dirname "${BASH_SOURCE[0]}")/.." || exit 1
python3 - <<'PYTHON'
import pathlib
import re
import sys

PAGE = pathlib.Path('docs/DECISIONS.md')
numbers = [int(number) for number in re.findall(r'^(\d+)\. ', PAGE.read_text(), re.M)]
sections = re.findall(r'^#+ (.+)', PAGE.read_text(), re.M)
wrong = [f'{number} stands where item {place} is due' for place, number in enumerate(numbers, 1) if number != place][:1]

cited = 0
for path in [*sorted(pathlib.Path('docs').rglob('*.md')), pathlib.Path('README.md'), pathlib.Path('bench/README.md')]:
    text = ' '.join(path.read_text().split())
    for row in re.findall(r'\bitems? (\d+(?:(?:, | and | to |, and )\d+)*)', text):
        cited += 1
        wrong += [f'{path} cites item {number}, which is not there' for number in re.findall(r'\d+', row) if int(number) not in numbers]
    for names in re.findall(r'DECISIONS\.md\)([^.)]*)', text):
        cited += 1
        wrong += [f'{path} cites "{name}", which is no section' for name in re.findall(r'"([^"]+)"', names) if name not in sections]
    # other ways to cite, which could not be told from other numbers: in brackets alone stands a refusal's number, 1 to 14
    lone = re.findall(r'\bas in \d+|DECISIONS(?:\]\([^)]*\))?,? \d+', text)
    lone += [said for said in re.findall(r'\(\d+\)', text) if path == PAGE and int(said[1:-1]) > 14]
    wrong += [f'{path} says {said}: an item is cited as "item 55"' for said in lone]
for line in wrong:
    print('decisions:', line)
print(f'decisions: {len(numbers)} items, cited at {cited} places, {len(wrong)} wrong')
sys.exit(1 if wrong or not numbers or not cited else 0)
PYTHON
