#!/usr/bin/env bash
# docs/definitions.md names each definition of the crates def_*, and nothing that isn't there:
#   - each crate def_* has a heading '## CRATE: ..', and each file of its specs a heading '### FILE: ..' below it;
#   - each public definition of such a file stands in backticks below the crate's heading;
#   - each name in backticks below the heading of a crate, whichever crate, stands in its files, or in those of the crate
#     that is named behind it, as in `meaning` of `def_meaning`;
#   - of def_rows, the rows of the table are the files with their examples, each once, and the text says how many.
cd "$(dirname "${BASH_SOURCE[0]}")/../.." || exit 1
exec python3 - <<'CHECK'
import glob, os, re, sys

PAGE = 'docs/definitions.md'
faults = []

def names_of(path):
    """The public names that a file of specs defines."""
    with open(path, encoding='utf-8') as lines:
        found = (re.match(r'(?:abbrev |unfoldable )*pub (?:record |data )?([^\s(]\S*)(?: \(.*?\))* :', line) for line in lines)
        return [m.group(1) for m in found if m]

def examples_of(path):
    """The worked examples of a file: its public theorems. What it abbreviates are the words that they share."""
    with open(path, encoding='utf-8') as lines:
        found = (re.match(r'pub ([^\s(]\S*)(?: \(.*?\))* :', line) for line in lines)
        return [m.group(1) for m in found if m]

def specs_of(crate):
    """The files of a crate's definitions, by name. Lib lists the others, and Lines has no definition of its own."""
    paths = sorted(glob.glob(f'crates/{crate}/specs/**/*.antt', recursive=True))
    files = {os.path.basename(p)[:-len('.antt')]: p for p in paths}
    return {name: path for name, path in files.items() if name != 'Lib' and names_of(path)}

def words_of(crate):
    """The words of a crate's files: in code, in texts, and as names of files, but not in comments and imports."""
    words = set()
    for ending in ('antt', 'rt'):
        for path in glob.glob(f'crates/{crate}/**/*.{ending}', recursive=True):
            words.add(os.path.basename(path).rsplit('.', 1)[0])
            with open(path, encoding='utf-8') as lines:
                for line in lines:
                    if not re.match(r'\s*(?:--|//|(?:unfoldable |pub |ghost )*use )', line):
                        words.update(re.findall(r'[\w◌>=-]+', line))
                        words.update(re.findall(r'\w+', line))
    return words

# ---- the page: what stands below the heading of each crate, and below which headings of files

text, files, with_text = {}, {}, {}
here = []
with open(PAGE, encoding='utf-8') as page:
    for line in re.sub(r'```.*?```', '', page.read(), flags=re.S).split('\n'):
        if line.startswith('## '):
            here = re.findall(r'\b(?:def|wh|scn)_\w+', line.split(':')[0])
            with_text.update({crate: here for crate in here})  # a heading may be that of two crates
        elif line.startswith('### '):
            for crate in here:
                files.setdefault(crate, []).extend(re.findall(r'\w+', line[4:].split(':')[0].replace(' and ', ' ')))
        for crate in here:
            text.setdefault(crate, []).append(line)
text = {crate: '\n'.join(lines) for crate, lines in text.items()}

def spans_of(crate):
    """What stands in backticks, each with the crate behind it, as in `X` of `CRATE`."""
    return re.findall(r'`([^`]+)`(?: of (?:the crate )?`(\w+)`)?', text[crate].replace('\n', ' '))

# ---- each definition is named

crates = [os.path.basename(p.rstrip('/')) for p in sorted(glob.glob('crates/def_*/'))]
count = 0
for crate in crates:
    if crate not in text:
        faults.append(f"{crate}: there is no heading '## {crate}: ..'")
        continue
    specs = specs_of(crate)
    if crate == 'def_rows':
        rows = re.findall(r'^\| `(\w+)` \| (`[^|]*`) \|', text[crate], flags=re.M)
        said = [(file, name) for file, names in rows for name in re.findall(r'`(\w+)`', names)]
        there = [(file, name) for file, path in specs.items() for name in examples_of(path)]
        faults += [f'{crate}: the example {file}.{name} is in no row' for file, name in there if (file, name) not in said]
        faults += [f'{crate}: a row has {file}.{name}, which isn\'t there' for file, name in said if (file, name) not in there]
        faults += [f'{crate}: {file}.{name} is in two rows' for file, name in sorted(set(said)) if said.count((file, name)) > 1]
        if f'{len(there)} worked examples' not in text[crate]:
            faults.append(f"{crate}: the text doesn't say '{len(there)} worked examples'")
        count += len(there)
        continue
    said = {span for span, _ in spans_of(crate)}
    for file, path in specs.items():
        if file not in files.get(crate, []):
            faults.append(f"{crate}: there is no heading '### {file}: ..'")
        for name in names_of(path):
            count += 1
            if name not in said:
                faults.append(f'{crate}: {file}.{name} isn\'t named')
    faults += [f'{crate}: there is no file {file}' for file in files.get(crate, []) if file not in specs]

# ---- each name is there

with open('crates.txt', encoding='utf-8') as lines:
    libraries = set(re.findall(r'\w+', re.sub(r'#.*', '', lines.read())))
known = {}
for crate in text:
    if crate not in libraries:
        faults.append(f'there is no crate {crate}')
        continue
    for span, other in spans_of(crate):
        if re.fullmatch(r'[A-Za-z◌][\w◌>=-]*', span) and span not in libraries:
            homes = [other] if other else with_text[crate]
            for home in homes:
                if home not in known:
                    known[home] = words_of(home)
            if not any(span in known[home] for home in homes):
                faults.append(f"{crate}: {span} isn't in {' or '.join(homes)}")

for fault in sorted(set(faults)):
    print('definitions:', fault)
print(f'definitions: {count} definitions of {len(crates)} crates, {len(set(faults))} faults')
sys.exit(1 if faults or not count else 0)
CHECK
