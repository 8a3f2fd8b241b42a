#!/usr/bin/env python3
"""What a reader of the promises has to read: the definitions that the contracts of the calls and the chosen claims rest on, file by file.

    docs/reading.py           prints the list of docs/AUDIT.md
    docs/reading.py --write   puts it into docs/AUDIT.md, between its two marks
    docs/reading.py --check   says whether docs/AUDIT.md has it, and whether each chosen claim has a proof

A definition is a paragraph of a file of specs/: what stands between two empty lines, comment and all. It rests on the definitions that it names.
"""
import re
import sys
import textwrap
from pathlib import Path

ROOT = Path(__file__).resolve().parent.parent
AUDIT = ROOT / 'docs/AUDIT.md'
BEGIN, END = '<!-- reading: by docs/reading.py -->\n', '<!-- reading ends -->\n'

# the calls whose contracts are read: those that C calls, and two lookups that hand back a part, which a C call can't
EXPORTED = r'#\[unsafe\(no_mangle\)\]\npub extern "C" fn (\w+)'
CALLS = [('capi_c/src/*.rt', EXPORTED), ('headers/src/lookup.rt', r'pub fn (value)\b'), ('headers/src/setting.rt', r'pub fn (setting)\b')]

# the claims that docs/AUDIT.md cites, by crate
CLAIMS = {
    'headers': ['LookupFindsValue', 'NumbersHold'],
    'scgi': ['AcceptsExactly', 'WritesExactly', 'WriteThenRead', 'ReadThenWrite', 'SpoolsHold', 'WindowReadsAll', 'NumbersHold'],
    'socket': ['SocketReads', 'EndStays', 'BlockKnown', 'NoneTaken', 'ShortChangesNothing', 'SocketNumbers'],
    'mounts': ['MountIsLongest', 'LongestWins', 'MountsAreHeaders', 'RouteIsPath'],
    'gateway': ['BytesExactlyMeaning', 'WrittenIsAccepted', 'VariablesFit', 'NumbersHold', 'WorkedCases'],
    'response': ['TableHolds', 'StatusHolds', 'ServedIsTarget', 'LocationStands', 'PlacesWithin'],
    'editions': ['RfcIsAsBefore', 'RefusalsStay', 'DraftExactly', 'StreamSettles', 'NumbersHold'],
    'capi': ['ZeroIsGiven', 'ZeroIsEnd', 'RefusalKeeps'],
}

USE = re.compile(r'(?:ghost )?use Rattle\.(\w+)\.specs\.(\w+)(?:\.\{(.*?)\}| as (\w+))', re.S)
# a field of a record is `pub`, too, but indented and with no other word before it
DEFINES = re.compile(r'^(?:(?:  )?(?:(?:abbrev |unfoldable )+pub |pub (?:data|record) )|pub (?!data |record ))([^\s:({]+)', re.M)
CONSTRUCTOR = re.compile(r'^ +([^\s:({]+)(?: [^\s:]+)* :', re.M)
WORD = re.compile(r'[^\s(){}\[\];,]+')


class File:
    """A file of specs/, or the contract of a call: its paragraphs, what each name in it means, and which paragraphs are to be read."""

    def __init__(self, path, crate, text):
        self.path, self.crate, self.name = path, crate, Path(path).stem
        self.lines = text.count('\n')
        self.paragraphs = [p for p in text.split('\n\n') if p.strip()]
        self.own, self.lent, self.modules, self.read = {}, {}, {}, set()
        for crate_of, module, names, alias in USE.findall(text):
            if alias:
                self.modules[alias] = (crate_of, module)
            for name in filter(None, re.split(r',\s*', names.strip())):
                inner, _, outer = name.partition(' as ')
                self.lent[(outer or inner).strip()] = (crate_of, module, inner.strip())
        for i, paragraph in enumerate(self.paragraphs):
            code = without_comments(paragraph)
            constructors = CONSTRUCTOR.findall(code) if re.search(r'\bpub data ', code) else []
            for name in DEFINES.findall(code) + constructors:
                self.own.setdefault(name, i)

    def names(self):
        """The names that the paragraphs to be read define at their start, in the file's order."""
        first = {}
        for name, i in self.own.items():
            first.setdefault(i, name)
        return [first[i] for i in sorted(self.read) if i in first]

    def lines_to_read(self):
        return sum(self.paragraphs[i].strip('\n').count('\n') + 1 for i in self.read)


def without_comments(text):
    return re.sub(r'(^|\s)--.*', r'\1', text)


def all_files():
    files = {}
    for lib in sorted(ROOT.glob('crates/*/specs/Lib.antt')):
        crate = lib.parent.parent.name
        for module in re.findall(r'^pub mod (\w+)', lib.read_text(), re.M):
            path = lib.parent / (module + '.antt')
            files[crate, module] = File(str(path.relative_to(ROOT)), crate, path.read_text())
    return files


def contracts():
    """The contract of each call, with the names that its file lends it."""
    found = []
    for folder, function in CALLS:
        for path in sorted(ROOT.glob('crates/' + folder)):
            text = path.read_text()
            uses = '\n'.join(re.findall(r'^ghost use .*$', text, re.M))
            for _, clauses in re.findall(function + r'.*?\n    (ensures.*?)\n\{', text, re.S):
                found.append(File(str(path), path.parent.parent.name, uses + '\n\n' + clauses + '\n'))
    return found


def follow(files, file, paragraph):
    """Marks what a paragraph of a file names, and what that names."""
    waiting = [(file, paragraph)]
    while waiting:
        file, paragraph = waiting.pop()
        for word in WORD.findall(without_comments(paragraph)):
            for target, name in meanings(files, file, word):
                i = target.own[name]
                if i not in target.read:
                    target.read.add(i)
                    waiting.append((target, target.paragraphs[i]))


def meanings(files, file, word):
    prefix, _, rest = word.partition('.')
    if rest and prefix in file.modules:
        target = files.get(file.modules[prefix])
        return [(target, rest)] if target and rest in target.own else []
    # a field of what a definition gives
    if rest and word not in file.own and word not in file.lent:
        word = prefix
    if word in file.own:
        return [(file, word)]
    if word in file.lent:
        crate, module, name = file.lent[word]
        target = files.get((crate, module))
        if target and name not in target.own:
            sys.exit(f'{file.path}: {word}: no definition of it in {target.path}')
        return [(target, name)] if target else []
    return []


def reading():
    """The files to be read, each after those that it uses and with its definitions to be read marked; and the count of the contracts."""
    files = all_files()
    promised = contracts()
    for contract in promised:
        follow(files, contract, contract.paragraphs[-1])
    for crate, names in CLAIMS.items():
        claims = files[crate, 'Claims']
        for name in names:
            if name not in claims.own:
                sys.exit(f'{claims.path}: no claim {name}')
            claims.read.add(claims.own[name])
            follow(files, claims, claims.paragraphs[claims.own[name]])
    return [f for f in in_order(files) if f.read], len(promised)


def in_order(files):
    """All files by crates.txt and within a crate by its Lib.antt, but each after those that it uses."""
    crates = re.findall(r'^(\w+)(?: staticlib)?:', (ROOT / 'crates.txt').read_text(), re.M)
    seen, ordered = set(), []

    def place(file):
        if file in seen:
            return
        seen.add(file)
        for crate, module, *_ in [*file.lent.values(), *file.modules.values()]:
            if (crate, module) in files:
                place(files[crate, module])
        ordered.append(file)

    for file in sorted(files.values(), key=lambda f: crates.index(f.crate)):
        place(file)
    return ordered


def listed():
    files, promised = reading()
    total = sum(f.lines_to_read() for f in files)
    text = (f'The {promised} contracts and the claims named above rest on {sum(len(f.names()) for f in files)} definitions, '
            f'{total:,} lines with their comments, in {len(files)} files:')
    out = [textwrap.fill(text, 100), '']
    for n, f in enumerate(files, 1):
        item = f'{n}. `{f.path}`, {f.lines_to_read()} of {f.lines} lines: ' + ', '.join(f'`{name}`' for name in f.names()) + '.'
        out.append(textwrap.fill(item, 100, subsequent_indent=' ' * len(f'{n}. '), break_on_hyphens=False))
    return '\n'.join(out) + '\n'


def faults():
    """Chosen claims that no line of the crate's proofs/Claims.antt has for its type; definitions and contracts that cite a proof, where a
    reader would not look."""
    found = []
    for crate, names in CLAIMS.items():
        text = (ROOT / f'crates/{crate}/proofs/Claims.antt').read_text()
        found += [f'{crate}: {name} has no proof in proofs/Claims.antt' for name in names if not re.search(rf'^pub \S+ : {name}$', text, re.M)]
    for path in [*ROOT.glob('crates/*/specs/*.antt'), *ROOT.glob('crates/*/src/*.rt')]:
        if re.search(r'^(?:ghost )?use Rattle\.(?!std\.)\w+\.proofs\.', path.read_text(), re.M):
            found.append(f'{path.relative_to(ROOT)} cites a proof')
    return found


def main():
    if sys.argv[1:] not in ([], ['--write'], ['--check']):
        sys.exit(__doc__)
    text = listed()
    if not sys.argv[1:]:
        print(text, end='')
        return
    before, rest = AUDIT.read_text().split(BEGIN)
    old, after = rest.split(END)
    if sys.argv[1] == '--write':
        AUDIT.write_text(before + BEGIN + text + END + after)
    elif old != text:
        sys.exit('docs/AUDIT.md has another list than the sources: run docs/reading.py --write')
    elif faults():
        sys.exit('\n'.join(faults()))


main()
