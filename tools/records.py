#!/usr/bin/env python3
"""For an older kit, rattle-kit-5b, and of no use with today's, whose borrow checker derives this part itself.

Makes the borrow checker's part of the proof of every function that carries the work area, `[Record]`.

    tools/records.py [CRATE...]          writes crates/*/proofs/Generated and crates/*/proofs/*/Proof/Tie.antt (of the crates named, or
                                         of all), and restates their must-fail edits
    tools/records.py --edits [CRATE...]  restates the edits alone: beside its own pairs, each gets those that its change makes in that text
    --any-kit                            goes on with another kit than the one that this script was written for

The toolchain makes this part itself, except for slices of structs, which it declines. So it is asked for the same functions over slices of
`[u16; 2]`, in a copy of the sources with no contracts (the derivation does not depend on them) and a hole for each proof, and in what it
makes the element is renamed. Nothing here is trusted: antt checks every file against the real function's code and contract, and
refuses one that is stale."""
import argparse, collections, difflib, functools, itertools, os, pathlib, re, shutil, subprocess, sys, tempfile

ROOT = pathlib.Path(__file__).resolve().parent.parent
PAIR = '[u16; 2]'
# The names that are renamed below are internal to the kit: with another kit they may be others.
KIT = 'rattle-kit-5b logic 064da1ca440f63e7'
# The thin functions, proved by hand, stand in the crate that declares the record. What the twin does in their place, by their parameters.
THIN = {'read': 'Record {{ formula: {0}[{1}][0], term: {0}[{1}][1] }}', 'write': '{0}[{1}] = [{2}, {3}];'}
MADE = '-- Made by tools/records.py from the sources; antt refuses it where it is stale. Assumes nothing.\n'
WIDTH = 136


def kit():
    """The toolchain of the kit whose `rt` is on the path."""
    rt = pathlib.Path(shutil.which('rt') or sys.exit('records.py: no rt on the path')).resolve()
    home = pathlib.Path(os.environ.get('RATTLE_HOME', rt.parent.parent))
    return home, home / 'on' / os.uname().machine


def pinned(any_kit):
    """Stops where the kit is another one than the script was written for."""
    there = (kit()[0] / 'KIT-ID').read_text().strip()
    if there != KIT and not any_kit:
        sys.exit('records.py: written for %s, and this is %s (--any-kit goes on)' % (KIT, there))


def listed():
    """The crates of crates.txt, each after those that it stands on."""
    deps = {}
    for line in (ROOT / 'crates.txt').read_text().splitlines():
        name, colon, rest = line.partition('#')[0].partition(':')
        if colon:
            deps[name.strip()] = rest.split()
    order = []

    def visit(name):
        if name in deps and name not in order:
            for dep in deps[name]:
                visit(dep)
            order.append(name)
    for name in deps:
        visit(name)
    return order, deps


def functions(source):
    """Name, parameters and whole text of each function of a file."""
    heads = list(re.finditer(r'^(?:pub )?(?:extern "C" )?fn (\w+)(?:<[^>]*>)?\((.*?)\)(?= ->|\n| \{)', source, flags=re.M | re.S))
    ends = [h.start() for h in heads[1:]] + [len(source)]
    return [(h.group(1), h.group(2), source[h.start():end]) for h, end in zip(heads, ends)]


def filled_of(source):
    """Functions that the toolchain covers though they name the element, as they return an array of it: what they say in the twin."""
    made = re.findall(r'^pub fn (\w+)\((\w+): u16\) -> \[Record; (\d+)\]$', source, flags=re.M)
    return {f: '[[%s; 2]; %s]' % (x, n) for f, x, n in made}


def thin_of(source):
    """The thin functions of the file that declares the record."""
    if not re.search(r'^pub struct Record \{', source, flags=re.M):
        return {}
    return {f: THIN[f].format(*re.findall(r'(\w+):', params)) for f, params, _ in functions(source) if f in THIN}


@functools.cache
def stand_ins():
    """By crate and function: the bodies of the thin functions in the twin, and those of the functions that return an array of records."""
    thin, filled = {}, {}
    for name in listed()[0]:
        for path in sorted((ROOT / 'crates' / name / 'src').rglob('*.rt')):
            source = path.read_text()
            thin.update({(name, f): body for f, body in thin_of(source).items()})
            filled.update({(name, f): body for f, body in filled_of(source).items()})
    if sorted(f for _, f in thin) != sorted(THIN):
        sys.exit('records.py: `struct Record` does not stand once, with `%s` beside it' % '` and `'.join(THIN))
    return thin, filled


class Crate:
    def __init__(self, name, changed=None):
        self.name, self.dir = name, ROOT / 'crates' / name
        self.files = {p.relative_to(self.dir / 'src'): p.read_text() for p in sorted((self.dir / 'src').rglob('*.rt'))}
        if changed:
            self.files.update(changed)
        self.cycles = {f: p.name for p in (self.dir / 'proofs').glob('+*') for f in p.name.strip('+').split('+')}
        self.functions = [('/'.join(self.module(p)), f, params, text) for p, s in self.files.items() for f, params, text in functions(s)]
        self.carriers = [(m, f) for m, f, params, text in self.functions
                         if re.search(r'\[Record[\];]', params + text.partition('{\n')[2])
                         or any('%s::%s(' % made in text for made in stand_ins()[1])]
        self.main = pathlib.Path('main.rt') in self.files

    @staticmethod
    def module(path):
        return [] if path.name in ('lib.rt', 'main.rt') else list(path.with_suffix('').parts)

    def together(self, changed):
        """Functions with those that stand in a cycle with them."""
        homes = {(m, self.cycles.get(f, f)) for m, f in changed}
        return {(m, f) for m, f, _, _ in self.functions if (m, self.cycles.get(f, f)) in homes}

    def twin(self, place, kept):
        """Writes the twin: no contracts, pairs for records, a hole for each proof, and only the bodies of the functions kept."""
        for path, source in self.files.items():
            source = re.sub(r'⌜.*?⌝', '⌜ Unit {0} ⌝', source, flags=re.S)
            source = re.sub(r'^ghost use .*?;\n', '', source, flags=re.M | re.S)
            source = re.sub(r'\[Record(?=[\];])', '[' + PAIR, source)
            for (crate, f), body in (*stand_ins()[0].items(), *stand_ins()[1].items()):
                if crate == self.name:
                    source = re.sub(r'((?:pub )?fn %s\(.*?\n)\{\n.*?\n\}\n' % f, lambda m: m.group(1) + '{\n    ' + body + '\n}\n', source,
                                    count=1, flags=re.S)
            module = '/'.join(self.module(path))
            source = re.sub(r'(^(?:pub )?(?:extern "C" )?fn (\w+)[(<].*?\{\n).*?^\}\n',
                            lambda m: m.group() if (module, m.group(2)) in kept else m.group(1) + '    loop {}\n}\n',
                            source, flags=re.M | re.S)
            write(place / self.name / 'src' / path, source)
        for module, home in {(m, self.cycles.get(f, f) if (m, f) in kept else f) for m, f, _, _ in self.functions}:
            name = home.replace('_', '-') + '-spec'
            stated = '.'.join(['proofs'] + [x for x in module.split('/') if x] + [home] + ([] if home[0] == '+' else ['Statement']))
            write(place / self.name / 'proofs' / module / home / 'Proof.antt',
                  'use Rattle·%s·proofs.%s.{statement}\n\npub %s : {M : Type 1} → statement M\n%s 𝓤 H 𝓜 𝓖 𝓡 = ?\n'
                  % (self.name, stated, name, name))


def write(path, text):
    path.parent.mkdir(parents=True, exist_ok=True)
    path.write_text(text)


def derived(crates, top, wanted, place):
    """What the toolchain makes for the twins of the functions wanted, by crate: a folder with one library for each crate."""
    home, own = kit()
    for crate in crates:
        crate.twin(place, wanted.get(crate.name, set()))
    source = 'src/main.rt' if any(crate.main for crate in crates if crate.name == top) else 'src/lib.rt'
    words = [own / 'bin/rattle', 'check', '--crate-name', top, place / top / source, '--extern', 'std=%s' % (own / 'rlib/std.rlib'),
             '-L', 'dependency=%s' % (own / 'rlib'), '--antt-project', home / 'logic/antt-project.json',
             '--logic-built', own / 'logic-built', '--generated', place / 'made']
    for name in listed()[1][top]:
        if not (ROOT / 'crates' / name).is_dir():
            words += ['--extern', '%s=%s' % (name, own / 'rlib' / (name + '.rlib'))]
    for crate in crates:
        if crate.name != top:
            words += ['--lib', '%s=%s' % (crate.name, place / crate.name / 'src/lib.rt')]
    run = subprocess.run([str(w) for w in words], capture_output=True, text=True)
    if not (place / 'made').is_dir():
        sys.exit('records.py: the toolchain made nothing (exit %d):\n' % run.returncode + (run.stdout + run.stderr)[-4000:])
    (place / 'said').write_text(run.stdout + run.stderr)
    return place / 'made'


def placed(text, crate, crates):
    """The text with the paths of the generated modules."""
    for other in crates:
        for module, f in other.carriers:
            at = '.'.join([x for x in module.split('/') if x] + [f])
            # another crate names a function of a module as the crate passes it on, at its top
            for lib, known in (('Rattle·%s·proofs.proofs.' % other.name, at), ('Rattle·%s.proofs.' % other.name, f)):
                text = re.sub(r'^use %s%s\.(Kinds|Reads|Lts)\b' % (re.escape(lib), re.escape(known)),
                              r'use %sGenerated.%s.\1' % (lib, at), text, flags=re.M)
    own = 'Rattle·%s·proofs.proofs.' % crate.name
    text = re.sub(r'^use %s(\+[\w+]+)\.Lts-(\w+)( as \S+)?' % re.escape(own),
                  lambda m: 'use %sGenerated.%s.Lts%s' % (own, m.group(2), m.group(3) or ' as Lts-' + m.group(2)), text, flags=re.M)
    return text


def unremarked(text):
    """The text without the toolchain's remarks on the twin, which has a hole for each proof and no contract."""
    return re.sub(r'^ *-- antt refused.*\n', '', text, flags=re.M)


def renamed(text, crate, crates):
    """The text with the record in place of the pair, and without what was made for a reader."""
    row = r"Array'*\.Array\s+\(Referent'*\.rtF\s+\(Referent'*\.fInt\s+Syntax\.w16\)\)\s+2"
    machine = r'Syntax\.tyArray\s+\(Syntax\.tyInt\s+Syntax\.w16\)\s+2'
    lent = r'Syntax\.tyRef\s+(?:Syntax\.erased|\(Syntax\.named\s+\d+\))\s+Syntax\.(?:mut|imm)'
    text = re.sub(r'\(%s\)|%s' % (row, row), 'Element.row', text)
    text = re.sub(r"Array'*\.eArr\s+\(Array'*\.eInt\s+Syntax\.w16\)\s+2", 'Element.elem', text)
    text = re.sub(r"Array'*\.eArr-laws\s+\(Array'*\.eInt\s+Syntax\.w16\)\s+\(Array'*\.eInt-laws\s+Syntax\.w16\)\s+2",
                  'Element.elem-laws', text)
    text = re.sub(r"Copies'*\.cArr\s+\(Referent'*\.rtF\s+\(Referent'*\.fInt\s+Syntax\.w16\)\)\s+"
                  r"\(Copies'*\.cRf\s+\(Referent'*\.fInt\s+Syntax\.w16\)\)\s+2", 'Element.copies', text)
    # behind a reference a declared type is its name; anywhere else it is spelled out
    text = re.sub(r'(%s\s+\(Syntax\.tyArray)\s+\(%s\)' % (lent, machine), r'\1 Element.named', text)
    text = re.sub(r'(%s)\s+\(%s\)' % (lent, machine), r'\1 Element.named', text)
    text = re.sub(r'\(%s\)|%s' % (machine, machine), 'Element.spelled', text)
    text = placed(text, crate, crates)
    text = unremarked(text)
    # what `search` finds here: every clause of ours is a pure proposition, and a missing one says nothing
    text = re.sub(r'(·read\s+=(?:(?!search\s+Read).)*?)search\s+Read\.reads', r'\1Read.r-last _', text, flags=re.S)
    text = re.sub(r'search\s+Read\.reads', 'Read.r-top', text)
    if 'Element.' in text:
        home = next(name for name, _ in stand_ins()[0])
        text = 'use Rattle·%s%s.proofs.Element\n' % (home, '·proofs' if crate.name == home else '') + text
    return text


# Sharing: a closed subterm that occurs twice becomes an abbreviation, and lines are joined.
TOKEN = re.compile(r'"[^"]*"|[(){},;]|[^\s(){},;]+')
TYPES = {'Syntax.' + t for t in ('tyStruct', 'tyRef', 'tyInt', 'tyArray', 'tyPtr', 'tyEnum')}
CLOSED = re.compile(r"\d+|,|tt|∷|\[\]|[A-Z][\w'·]*\.[^\s]+|y\d+")


def parsed(tokens, i=0, close=None):
    out = []
    while i < len(tokens):
        t = tokens[i]
        i += 1
        if t in '({':
            inner, i = parsed(tokens, i, ')' if t == '(' else '}')
            out.append((t, inner))
        elif t in ')}':
            assert t == close
            return out, i
        else:
            out.append(t)
    assert close is None
    return out, i


def tidied(terms):
    """No last comma or semicolon, and lists by `∷`."""
    terms = [t if isinstance(t, str) else (t[0], tidied(t[1])) for t in terms]
    if terms and terms[-1] in (',', ';'):
        terms = terms[:-1]
    out, part = [], []
    for t in terms + [None]:
        if t is not None and t not in (',', ';'):
            part.append(t)
            continue
        before = part[:part.index('=') + 1] if '=' in part else []
        part = part[len(before):]
        if len(part) == 3 and part[0] == 'List._∷_':
            rest = part[2]
            listed_on = not isinstance(rest, str) and rest[0] == '(' and '∷' in rest[1] and ',' not in rest[1]
            part = [part[1], '∷'] + (rest[1] if listed_on else [rest])
        out += before + ['[]' if x == 'List.[]' else x for x in part] + ([t] if t else [])
        part = []
    return out


def shown(terms):
    out = ''
    for t in terms:
        text = t if isinstance(t, str) else '(%s)' % shown(t[1]) if t[0] == '(' else '{ %s }' % shown(t[1])
        out += text if text in (',', ';') or not out else ' ' + text
    return out


def closed(t):
    return bool(CLOSED.fullmatch(t)) if isinstance(t, str) else t[0] == '(' and all(map(closed, t[1]))


def type_of(t):
    if isinstance(t, str) or t[0] != '(' or not t[1] or not isinstance(t[1][0], str) or not closed(t):
        return None
    if t[1][0] in TYPES and ',' not in t[1]:
        return 'Syntax.Ty'
    return 'Row.Entry' if t[1][0].isdigit() and len(t[1]) > 2 and t[1][1] == ',' and t[1].count(',') == 1 else None


class Shared:
    def __init__(self, trees):
        self.count, self.names, self.defs = collections.Counter(), {}, []
        for tree in trees:
            self.tell(tree)

    def tell(self, terms):
        for t in terms:
            if not isinstance(t, str):
                if type_of(t):
                    self.count[shown([t])] += 1
                self.tell(t[1])

    def of(self, terms):
        return [t if isinstance(t, str) else self.one(t) for t in terms]

    def one(self, t):
        kind, key = type_of(t), shown([t])
        if not kind or self.count[key] < 2 or len(key) <= 24:
            return (t[0], self.of(t[1]))
        if key not in self.names:
            body = self.of(t[1])
            self.names[key] = 'y%d' % len(self.defs)
            self.defs.append((self.names[key], kind, body if kind == 'Syntax.Ty' else [('(', body)]))
        return self.names[key]


def pieces(terms):
    """Words that no line is broken in: a pair or a record that fits in a line stays whole."""
    out = []
    for t in terms:
        if isinstance(t, str):
            if t in (',', ';') and out:
                out[-1] += t
            else:
                out.append(t)
            continue
        text = shown([t])
        if len(text) < WIDTH - 20 and (t[0] == '{' or ',' in t[1]) or not t[1]:
            out.append(text)
            continue
        inner = pieces(t[1])
        inner[0] = ('(' if t[0] == '(' else '{ ') + inner[0]
        inner[-1] += ')' if t[0] == '(' else ' }'
        out += inner
    return out


def wrapped(indent, terms):
    lines, line = [], ' ' * indent
    for piece in pieces(terms):
        if len(line) + 1 + len(piece) > WIDTH and line.strip():
            lines.append(line.rstrip())
            line = ' ' * (indent + 4) + piece
        else:
            line += (' ' if line.strip() else '') + piece
    return '\n'.join(lines + [line.rstrip()])


def with_lives(lines, trees):
    """The slots of the contexts, which hardly change from one to the next, named once in their module."""
    out, names, number = [], {}, 0
    for line, tree in zip(lines, trees):
        if tree and tree[0] == 'module':
            names = {}
        if tree and re.fullmatch(r'G\d+', str(tree[0])) and tree[1:3] == ['=', 'record'] and 'slots' in tree[3][1]:
            fields = tree[3][1]
            at = fields.index('slots') + 2
            key = shown(fields[at:])
            if key not in names:
                names[key] = 'life%d' % number
                number += 1
                held = out.pop()
                out += [([line[0], ''], ['abbrev', names[key], ':', 'List.List', 'Row.Life']),
                        ([line[0], ''], [names[key], '='] + fields[at:]), (None, None), held]
            tree = tree[:3] + [('{', fields[:at] + [names[key]])]
        out.append((line, tree))
    return out


def items(text):
    """Each declaration's line with its indent, continued lines joined; None for an empty line."""
    out, last, depth = [], None, 0
    start = re.compile(r'^( *)(abbrev |pub |module |mod |unfolding |open )')
    for line in text.split('\n'):
        if line.startswith(('use ', '--')):
            continue
        if not line.strip():
            out.append(None)
            continue
        indent = len(line) - len(line.lstrip())
        fresh = start.match(line) or not out or out[-1] is None or indent == last or out[-1][1].endswith(' where')
        if depth == 0 and fresh:
            out.append([indent, line.strip()])
            last = indent
        else:
            out[-1][1] += ' ' + line.strip()
        depth += sum(line.count(c) for c in '({') - sum(line.count(c) for c in ')}')
    return out


def shortened(text):
    uses = sorted({line for line in text.split('\n') if line.startswith('use ')})
    lines = items(text)
    trees = [line and tidied(parsed(TOKEN.findall(line[1]))[0]) for line in lines]
    shared = Shared([tree for tree in trees if tree])
    body = []
    for line, tree in with_lives(lines, [tree and shared.of(tree) for tree in trees]):
        if tree:
            body.append(wrapped(line[0], tree))
        elif body and body[-1]:
            body.append('')
    defs = ['abbrev %s : %s\n%s\n' % (name, kind, wrapped(0, [name, '='] + term)) for name, kind, term in shared.defs]
    rest = '\n'.join(defs + body).strip('\n')
    if '∷' in rest or '[]' in rest:
        uses.append('use mathlib.Core.List.{_∷_, []}')
    return MADE + '\n'.join(uses) + '\n\n' + rest + '\n'


def generated(crate, crates, wanted, made):
    """The generated files of a crate for the functions wanted: path in its proofs/ and text."""
    lib, out, nodes = made / ('Rattle·%s·proofs' % crate.name) / 'proofs', {}, collections.defaultdict(list)
    for module, f in crate.carriers:
        if (module, f) not in wanted:
            continue
        home = crate.cycles.get(f, f)
        at, inner = pathlib.PurePath(module), ['Kinds', 'Reads']
        source = {name: lib / at / f / (name + '.antt') for name in inner}
        if (crate.name, f) not in stand_ins()[0]:
            inner.append('Lts')
            source['Lts'] = lib / at / home / ('Lts-%s.antt' % f if home[0] == '+' else 'Lts.antt')
            out[at / home / 'Proof' / 'Tie.antt'] = lib / at / home / 'Tie.antt'
        for name in inner:
            out[pathlib.PurePath('Generated') / at / f / (name + '.antt')] = source[name]
        parts = ['Generated'] + list(at.parts) + [f]
        for k in range(1, len(parts)):
            if parts[k] not in nodes['/'.join(parts[:k])]:
                nodes['/'.join(parts[:k])].append(parts[k])
        nodes['/'.join(parts)] = inner
    files = {path: shortened(renamed(source.read_text(), crate, crates)) for path, source in out.items()}
    files.update({pathlib.PurePath(node + '.antt'): MADE + ''.join('pub mod %s\n' % name for name in names)
                  for node, names in nodes.items()})
    return files


def laid_out(folder):
    """The files of a folder in the layout of `rt fmt`."""
    files = [str(p) for p in folder.rglob('*.antt')]
    subprocess.run([str(kit()[1] / 'bin/rattle'), 'fmt', '--write'] + files, check=True)
    return {p.relative_to(folder): p.read_text() for p in folder.rglob('*.antt')}


def adopt(crate, crates, home):
    """A proof by hand declares its `Tie`, and names it and the cycle's parts where they stand now."""
    lib = 'Rattle·%s·proofs.proofs.' % crate.name
    found = '-- `%s` meets its contract: every need is found. Assumes nothing.\n' % home.name
    if not (home / 'Proof.antt').exists() or (home / 'Proof.antt').read_text().startswith(found):
        # the toolchain answered every need by itself, and the same searches do here
        needs = re.findall(r'\(answer\s*:\s*Need-([\w-]+)\)', (home / 'Proof/Tie.antt').read_text())
        spec, at = home.name.replace('_', '-') + '-spec', lib + '.'.join(home.relative_to(crate.dir / 'proofs').parts)
        write(home / 'Proof.antt', found + 'mod Tie\nuse borrow.Author.Needs.{needs}\n'
              + 'use %s.Statement.{statement}\nuse %s.Proof.Tie as tie\n\n' % (at, at)
              + ''.join('%s : tie.Need-%s\n%s c = search needs\n\n' % (n, n, n) for n in needs)
              + 'pub %s : {M : Type 1} → statement M\n%s =\n    tie.close\n    (tie.spec' % (spec, spec)
              + ''.join('\n    ' + n for n in needs) + ')\n')
    for path in [home / 'Proof.antt'] + sorted((home / 'Proof').glob('*.antt')):
        if path.name == 'Tie.antt' or not path.exists():
            continue
        old = path.read_text()
        new = re.sub(r'\.%s\.Tie(?= as|\.\{)' % re.escape(home.name), '.%s.Proof.Tie' % home.name, old)
        new = placed(new, crate, crates)
        if path.name == 'Proof.antt' and not re.search(r'^mod Tie$', new, flags=re.M):
            new = re.sub(r'^(?!--)', 'mod Tie\n', new, count=1, flags=re.M)
        if new != old:
            path.write_text(new)


def all_made(crates, top, wanted):
    """The generated files of the functions wanted, by crate, in the layout of `rt fmt`."""
    with tempfile.TemporaryDirectory() as place:
        place = pathlib.Path(os.environ.get('RECORDS_KEEP', place))
        made = derived(crates, top, wanted, place)
        for crate in crates:
            if crate.name in wanted and crate.carriers:
                for path, text in generated(crate, crates, wanted[crate.name], made).items():
                    write(place / 'out' / crate.name / path, text)
        return laid_out(place / 'out')


def below(names):
    order, deps = listed()
    needed = set()

    def visit(name):
        if name in deps and name not in needed:
            needed.add(name)
            for dep in deps[name]:
                visit(dep)
    for name in names:
        visit(name)
    return [name for name in order if name in needed]


def store(names):
    """Makes and writes the text of the crates named, or of all: the libraries at once, and each program by itself."""
    asked = [c for c in map(Crate, names or listed()[0]) if c.carriers]
    libraries = [c.name for c in asked if not c.main]
    for group in ([libraries] if libraries else []) + [[c.name] for c in asked if c.main]:
        store_group(group)


def store_group(names):
    crates = [c for c in map(Crate, below(names)) if c.functions]
    files = all_made(crates, crates[-1].name, {c.name: c.together(c.carriers) for c in crates if c.name in names})
    for crate in crates:
        if crate.name not in names:
            continue
        proofs = crate.dir / 'proofs'
        shutil.rmtree(proofs / 'Generated', ignore_errors=True)
        size = 0
        for path, text in files.items():
            if path.parts[0] == crate.name:
                write(proofs / pathlib.Path(*path.parts[1:]), text)
                size += len(text.encode())
        for module, f in crate.carriers:
            if (crate.name, f) not in stand_ins()[0]:
                adopt(crate, crates, proofs / module / crate.cycles.get(f, f))
        node = proofs / 'Lib.antt'
        old = node.read_text() if node.exists() else '-- What the proofs of `%s` stand on. Assumes nothing.\n' % crate.name
        if 'pub mod Generated\n' not in old:
            head = re.match(r'(--.*\n)*', old).end()
            node.write_text(old[:head] + 'pub mod Generated\n' + old[head:])
        print('%s: %d functions, %d bytes' % (crate.name, len(crate.carriers), size), flush=True)


TOLD = re.compile(r' +-- told apart: (\d+)\.$', flags=re.M)
ROOM = re.compile(r' *-- told apart: (\d+)\.$', flags=re.M)


def generated_files(crate):
    """The generated files of a crate that stand in it."""
    return [path for path in (crate.dir / 'proofs').rglob('*.antt') if path.name == 'Tie.antt' or 'Generated' in path.with_suffix('').parts]


def untold(text):
    """A generated file as it is made: no line is told apart from another."""
    return ''.join(TOLD.sub('', line) + '\n' for line in text.splitlines() if not ROOM.match(line))


def pairs_of(base, other):
    """The pairs that turn a generated file into another, and the file with a comment on each line of theirs that would not occur once.
    Where the other has more lines, the file gets lines that hold nothing but such a comment."""
    full = base.split('\n')
    at = [k for k, line in enumerate(full) if not ROOM.match(line)]
    before, after, changed, added = [TOLD.sub('', full[k]) for k in at], other.split('\n'), {}, collections.defaultdict(list)
    for tag, a, b, c, d in difflib.SequenceMatcher(None, before, after, autojunk=False).get_opcodes():
        if tag == 'equal':
            continue
        for k, new in zip(at[a:b], after[c:d] + [''] * (b - a)):
            if full[k]:
                changed[k] = new
            elif new:
                added[k].append(new)
        added[at[b]] += after[c + b - a:d]
    number = itertools.count(1 + max(map(int, ROOM.findall(base)), default=0))
    lines, pairs = '\n'.join([base, *changed.values(), *sum(added.values(), [])]), []
    for k, new in changed.items():
        if not TOLD.search(full[k]) and lines.count(full[k]) > 1:
            full[k] += '  -- told apart: %d.' % next(number)
        pairs.append((full[k], new))
    for k in sorted(added, reverse=True):
        rooms = ['-- told apart: %d.' % next(number) for _ in added[k]]
        full[k:k] = rooms
        pairs += zip(rooms, added[k])
    return pairs, '\n'.join(full)


def stored(path, text, pairs):
    """Writes a generated file, and answers the pairs with the lines that are told apart as `rt fmt` lays them out."""
    path.write_text(text)
    subprocess.run([str(kit()[1] / 'bin/rattle'), 'fmt', '--write', str(path)], check=True)
    told = {ROOM.search(line).group(1): line for line in path.read_text().splitlines() if ROOM.search(line)}
    return [(told[ROOM.search(old).group(1)] if ROOM.search(old) else old, new) for old, new in pairs]


def own_part(text):
    """What an edit's author wrote: its lines but for those on generated files, and its pairs. Lines that open with neither `file: `,
    `old: ` nor `new:` explain the edit."""
    lines, pairs, at, old, made = [], [], None, None, False
    for line in text.splitlines():
        if line.startswith('file: '):
            at = pathlib.PurePath(line[6:])
            made = 'Generated' in at.parts or at.name == 'Tie.antt'
        elif line.startswith('old: '):
            old = line[5:]
        elif line.startswith('new:') and not made:
            pairs.append((at, old, line[4:].removeprefix(' ')))
        if not (made and line.startswith(('file: ', 'old: ', 'new:'))):
            lines.append(line)
    return lines, pairs


class Edit:
    """A must-fail edit: its own pairs, and which carriers they change (a constant may change all)."""
    def __init__(self, file):
        self.file, self.crate = file, Crate(file.resolve().parent.parent.name)
        self.lines, self.own = own_part(file.read_text())
        before = {(m, f): text for m, f, _, text in self.crate.functions}
        after = {(m, f): text for m, f, _, text in Crate(self.crate.name, self.applied(self.crate.files)).functions}
        changed = [key for key in before if before[key] != after.get(key)]
        self.changed = self.crate.together(changed or before) & set(self.crate.carriers)
        if not any(at.parts[0] == 'src' for at, _, _ in self.own):
            self.changed = set()

    def applied(self, sources):
        files = dict(sources)
        for at, old, new in self.own:
            if at.parts[0] == 'src':
                path = pathlib.Path(at).relative_to('src')
                if path not in files or files[path].count(old) != 1:
                    sys.exit('records.py: %s: not once in %s, mend it and run --edits: %s' % (self.file.relative_to(ROOT), at, old))
                files[path] = files[path].replace(old, new)
        return files

    def restate(self, files):
        """Writes the edit with the pairs for the files that change with it."""
        lines, last = [], None
        for path, text in sorted(files.items()):
            here = self.crate.dir / 'proofs' / pathlib.Path(*path.parts[1:])
            pairs, told = pairs_of(here.read_text(), text)
            lines += [('proofs/' + '/'.join(path.parts[1:]), x, y) for x, y in stored(here, told, pairs)]
        out = ''.join(line + '\n' for line in self.lines)
        for at, old, new in lines:
            out += ('file: %s\n' % at if at != last else '') + 'old: %s\nnew: %s\n' % (old, new)
            last = at
        self.file.write_text(out)
        return len(lines)


def restate(names):
    """Restates the edits of the crates named, or of all, as many in one run of the toolchain as change no function twice."""
    crates, rounds = [c for c in map(Crate, names or listed()[0]) if c.carriers], []
    edits = [Edit(file) for crate in crates for file in sorted((crate.dir / 'must-fail').glob('*.edit'))]
    for crate in crates:
        for path in generated_files(crate):
            path.write_text(untold(path.read_text()))
    for edit in edits:
        where = {(edit.crate.name, key) for key in edit.changed}
        for group in rounds:
            if not where & group[0]:
                break
        else:
            group = (set(), [])
            rounds.append(group)
        if where:
            group[0].update(where)
            group[1].append(edit)
    for wanted_all, group in filter(all, rounds):
        sources = {}
        for edit in group:
            sources[edit.crate.name] = edit.applied(sources.get(edit.crate.name, edit.crate.files))
        crates = [c for c in (Crate(name, sources.get(name)) for name in below(list(sources))) if c.functions]
        wanted = {name: {key for crate, key in wanted_all if crate == name} for name in sources}
        files = all_made(crates, crates[-1].name, wanted)
        for edit in group:
            homes = {'/'.join(x for x in (m, edit.crate.cycles.get(f, f)) if x) for m, f in edit.changed}
            homes |= {'/'.join(x for x in ('Generated', m, f) if x) for m, f in edit.changed}
            own = {path: text for path, text in files.items() if path.parts[0] == edit.crate.name
                   and any('/'.join(path.parts[1:]).startswith(home + '/') for home in homes)}
            print('%s/%s: %d pairs' % (edit.crate.name, edit.file.stem, edit.restate(own)), flush=True)


def main():
    parser = argparse.ArgumentParser(description=__doc__, formatter_class=argparse.RawDescriptionHelpFormatter)
    parser.add_argument('--edits', action='store_true')
    parser.add_argument('--any-kit', action='store_true')
    parser.add_argument('crates', nargs='*', metavar='CRATE')
    said = parser.parse_args()
    pinned(said.any_kit)
    if not said.edits:
        store(said.crates)
    restate(said.crates)


if __name__ == '__main__':
    main()
