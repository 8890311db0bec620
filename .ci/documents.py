"""The check of the documents; .ci/documents says what it is."""
import os, re, sys

TOP = ['README.md', 'CONTRIBUTING.md'] + sorted('docs/' + name for name in os.listdir('docs') if name.endswith('.md'))
CRATES = sorted(name for name in os.listdir('crates') if os.path.isdir(f'crates/{name}/src'))
faults = []


def read(path):
    with open(path, encoding='utf-8') as file:
        return file.read()


def sources():
    """Each .rt and .antt file of the crates, by path."""
    found = {}
    for crate in CRATES:
        for part in ('src', 'specs', 'proofs'):
            for folder, _, names in os.walk(f'crates/{crate}/{part}'):
                for name in names:
                    if name.endswith(('.rt', '.antt')):
                        found[f'{folder}/{name}'] = read(f'{folder}/{name}')
    return found


SOURCES = sources()
WORDS = set(re.findall(r"[A-Za-z_][\w'-]*", '\n'.join(SOURCES.values())))
WORDS |= {piece for word in WORDS for piece in word.split('-')}
WORDS |= {name.rsplit('.', 1)[0] for crate in CRATES if os.path.isdir(f'crates/{crate}/must-fail') for name in os.listdir(f'crates/{crate}/must-fail')}
# The kit's own words, which no file of the repository needs to have.
KIT = {'atomic_table', 'percent_encoding'}


def documents():
    """Each document with the crate that it speaks of, or none."""
    for path in TOP:
        yield path, None
    for crate in CRATES:
        if os.path.exists(f'crates/{crate}/README.md'):
            yield f'crates/{crate}/README.md', crate


def check_paths(path, crate, text):
    for named in re.findall(r'crates/[\w./]+\w', text):
        if not os.path.exists(named):
            faults.append(f'{path}: {named} is not there')
    for named in re.findall(r'(?<![\w/])((?:src|specs|proofs|must-fail)/[\w/.]+\.(?:rt|antt|edit))', text):
        places = [crate] if crate else CRATES
        if not any(os.path.exists(f'crates/{place}/{named}') for place in places + CRATES):
            faults.append(f'{path}: {named} is in no crate')
    for named in re.findall(r'(?<![\w/])([a-z_]+)/((?:src|specs|proofs)/[\w/.]+\.(?:rt|antt))', text):
        if named[0] in CRATES and not os.path.exists(f'crates/{named[0]}/{named[1]}'):
            faults.append(f'{path}: {named[0]}/{named[1]} is not there')


def check_words(path, text):
    prose = re.sub(r'^ {4}.*$|```.*?```', '', text, flags=re.M | re.S)
    for named in re.findall(r'`([^`\n]+)`', prose):
        for word in re.findall(r'[A-Za-z_]\w*', named) if re.fullmatch(r'[\w:.]+', named) else []:
            tells = re.fullmatch(r'[a-z0-9]+(_[a-z0-9]+)+|[A-Z][a-z0-9]+([A-Z][a-z0-9]*)+', word)
            if tells and word not in WORDS and word not in CRATES and word not in KIT:
                faults.append(f'{path}: `{word}` stands in no source')


def stands_on():
    """What crates.txt lists for each crate."""
    found = {}
    for line in read('crates.txt').split('\n'):
        match = re.match(r'(\w+)(?: \w+=\S+)*:(.*)$', line)
        if match:
            found[match[1]] = match[2].split()
    return found


def check_floors():
    floor, floors = None, {}
    for line in read('docs/ARCHITECTURE.md').split('\n'):
        head = re.match(r'\*\*Floor (\d+)', line)
        if head:
            floor = int(head[1])
        elif line.startswith('#') and floor:
            break
        elif floor:
            for name in re.findall(r'\*\*(\w+)\*\*', line):
                if name in floors:
                    faults.append(f'docs/ARCHITECTURE.md: {name} has two places')
                floors[name] = floor
    lists = stands_on()
    for name in sorted(set(floors) - set(CRATES)):
        faults.append(f'docs/ARCHITECTURE.md: there is no crate {name}')
    for name in CRATES:
        if name.startswith('test_'):
            continue
        if name not in floors:
            faults.append(f'docs/ARCHITECTURE.md: {name} has no floor')
        for below in lists.get(name, []):
            if floors.get(below, 0) > floors.get(name, 99):
                faults.append(f'docs/ARCHITECTURE.md: {name} stands on {below}, which is above it')
    for name in sorted(set(CRATES) ^ set(lists)):
        faults.append(f'crates.txt and crates/ differ in {name}')


def check_counts():
    lines = sum(text.count('\n') for text in SOURCES.values())
    for path in TOP:
        for number in re.findall(r'(\d+) crates\b', read(path)):
            if int(number) != len(CRATES):
                faults.append(f'{path}: {number} crates, and there are {len(CRATES)}')
        for number in re.findall(r'(\d+) thousand lines', read(path)):
            if int(number) != round(lines / 1000):
                faults.append(f'{path}: {number} thousand lines, and there are {round(lines / 1000)}')


def check_commands():
    ran = [line.strip() for line in read('.ci/run').split('\n')]
    section = read('README.md').split('## Two commands', 1)[1].split('\n## ', 1)[0]
    commands = [line.strip() for line in section.split('\n') if re.match(r' {4}(rt|examples/)', line)]
    if len(commands) != 2:
        faults.append(f'README.md: {len(commands)} commands, and not two')
    for command in commands:
        if command not in ran:
            faults.append(f'README.md: CI does not run {command}')


def check_program():
    """The program that docs/LIBRARY.md shows is its crate's, and so is what it prints."""
    page = read('docs/LIBRARY.md')
    for name in ('main', 'visit', 'errand'):
        path = f'crates/library_example/src/{name}.rt'
        if '```rust\n' + read(path) + '```' not in page:
            faults.append(f'docs/LIBRARY.md: the text is not that of {path}')
    printed = read('crates/library_example/stdout').rstrip('\n').split('\n')
    if '\n'.join('    ' + line for line in printed) not in page:
        faults.append('docs/LIBRARY.md: it does not show what the program prints')


for path, crate in documents():
    text = read(path)
    check_paths(path, crate, text)
    check_words(path, text)
check_floors()
check_counts()
check_commands()
check_program()
for fault in faults:
    print(fault)
print(f'documents: {len(faults)} faults')
sys.exit(1 if faults else 0)
