#!/usr/bin/env python3
"""The picture of the crates, docs/CRATES.md, floor by floor, from crates.txt and the comment that heads each crate's source.

    tools/crates.py            writes docs/CRATES.md
    tools/crates.py --check    exits 1, with one line, where docs/CRATES.md is not what would be written, an arrow points up, a product
                               stands on a test, or a crate is listed and not there, or there and not listed

python3 -m doctest tools/crates.py runs the examples below."""
import pathlib
import re
import sys

ROOT = pathlib.Path(__file__).resolve().parent.parent
LIBRARIES = ('bytes', 'check', 'io', 'std')
TEST = 'test_'

HEAD = """# Crates

`tools/crates.py` makes this page from crates.txt and from the comment that heads each crate's source; \
`tools/crates.py --check` says whether it still holds.

A crate stands on crates of lower floors alone: its floor is one more than the highest that it stands on. \
In a drawing `o` is a crate that stands on another, and its line goes down to that one, `v`. \
An arrow that follows from others is left out; the tables have them all.
"""
PRODUCTS = """
## Products

"""
TESTS = """
## Tests

Programs that run the products, and what they share. No product stands on one. The drawing ends at the products that they stand on.

"""


class Wrong(Exception):
    """What is wrong with the list, in one line."""


def listed(text):
    """What each crate of crates.txt stands on, in the order of the list. Behind a name its kind and its numbers may stand.

    >>> listed('# a list\\na:\\nb: a io  # why\\nc staticlib: a\\n')
    {'a': [], 'b': ['a', 'io'], 'c': ['a']}
    >>> listed('test_a:\\nb: test_a\\n')
    Traceback (most recent call last):
    crates.Wrong: b, a product, stands on test_a, a test
    """
    deps = {}
    for line in text.splitlines():
        head, colon, rest = line.partition('#')[0].partition(':')
        if colon:
            name = head.split()[0]
            if name in deps:
                raise Wrong('crates.txt lists %s twice' % name)
            deps[name] = rest.split()
    for name, below in deps.items():
        for dep in below:
            if dep not in deps and dep not in LIBRARIES:
                raise Wrong('%s stands on %s, which is neither a crate of crates.txt nor a library of the kit' % (name, dep))
            if dep.startswith(TEST) and not name.startswith(TEST):
                raise Wrong('%s, a product, stands on %s, a test' % (name, dep))
    return deps


def floors(deps):
    """The floor of each crate: one more than the highest that it stands on.

    >>> floors({'b': ['a', 'io'], 'c': ['a', 'b'], 'a': []})
    {'a': 0, 'b': 1, 'c': 2}
    >>> floors({'a': [], 'b': ['a', 'd'], 'c': ['b'], 'd': ['c']})
    Traceback (most recent call last):
    crates.Wrong: an arrow points up: b -> d -> c -> b
    """
    out = {}

    def floor(name, above):
        if name in above:
            raise Wrong('an arrow points up: %s' % ' -> '.join(above[above.index(name):] + [name]))
        if name not in out:
            out[name] = 1 + max((floor(dep, above + [name]) for dep in deps[name] if dep in deps), default=-1)
        return out[name]
    for name in deps:
        floor(name, [])
    return out


def nearest(deps):
    """What each crate stands on, without what follows: the crates that another crate of its list stands on, directly or not.

    >>> nearest({'a': [], 'b': ['a'], 'c': ['a', 'b', 'io']})
    {'a': [], 'b': ['a'], 'c': ['b']}
    """
    def reached(name):
        return {name}.union(*(reached(dep) for dep in deps[name] if dep in deps))
    out = {}
    for name in deps:
        own = [dep for dep in deps[name] if dep in deps]
        out[name] = [dep for dep in own if not any(dep in reached(other) for other in own if other != dep)]
    return out


def drawing(names, floor, arrows):
    """The crates named, top floor first. Each crate that arrows reach has a column, and columns that end first stand at the left, so
    that nothing stands between a crate's name and where its column ends.

    >>> print(drawing(['a', 'b', 'c', 'd'], {'a': 0, 'b': 0, 'c': 1, 'd': 2}, {'a': [], 'b': [], 'c': ['b'], 'd': ['c', 'a']}), end='')
    ```
     2  d  o o
           | |
     1  c  v | o
             | |
     0  a    v |
        b      v
    ```
    """
    rows = sorted(names, key=lambda name: -floor[name])
    place = {name: i for i, name in enumerate(rows)}
    above = {name: [place[other] for other in rows if name in arrows[other]] for name in rows}
    columns = [name for name in rows if above[name]]
    wide, lines = max(map(len, rows)), []
    for i, name in enumerate(rows):
        higher = i > 0 and floor[rows[i - 1]] > floor[name]
        marks = {end: 'v' if end == name else 'o' if i in above[end] else '|' for end in columns if min(above[end]) <= i <= place[end]}
        if higher:
            passing = ['|' if end in marks and min(above[end]) < i else ' ' for end in columns]
            lines.append(' ' * (wide + 6) + ' '.join(passing))
        number = '%2d' % floor[name] if higher or i == 0 else '  '
        lines.append('%s  %s  %s' % (number, name.ljust(wide), ' '.join(marks.get(end, ' ') for end in columns)))
    return '```\n' + ''.join(line.rstrip() + '\n' for line in lines) + '```\n'


def held(source):
    """The first sentence of the comment that heads a source, before or behind attributes of the whole file.

    >>> held('#![tactic(auto)]\\n// What `a.rs` does: x, y, .., with\\n// no end. And more.\\nmod b;\\n')
    'What `a.rs` does: x, y, .., with no end.'
    """
    head = re.match(r'(?:#!\[.*\]\n)*((?://.*\n)*)', source).group(1)
    text = ' '.join(line[2:].strip() for line in head.splitlines())
    first = re.match(r'.*?[^.]\.(?=\s|$)', text)
    return first.group() if first else None


def table(names, deps, floor, holds):
    lines = ['| Floor | Crate | What it holds | Stands on | Of the kit |', '|---|---|---|---|---|']
    for name in sorted(names, key=lambda name: -floor[name]):
        own = ', '.join(dep for dep in deps[name] if dep in deps)
        kit = ', '.join(dep for dep in deps[name] if dep not in deps)
        lines.append('| %d | %s | %s | %s | %s |' % (floor[name], name, holds[name].replace('|', '\\|'), own or '–', kit or '–'))
    return '\n'.join(lines) + '\n'


def page(deps, holds):
    floor, arrows = floors(deps), nearest(deps)
    products = [name for name in deps if not name.startswith(TEST)]
    tests = [name for name in deps if name.startswith(TEST)]
    out = HEAD + PRODUCTS + drawing(products, floor, arrows) + '\n' + table(products, deps, floor, holds)
    if tests:
        feet = [name for name in products if any(name in arrows[test] for test in tests)]
        drawn = {name: arrows[name] if name in tests else [] for name in tests + feet}
        out += TESTS + drawing(tests + feet, floor, drawn) + '\n' + table(tests, deps, floor, holds)
    return out


def made():
    """The page of this repository."""
    deps = listed((ROOT / 'crates.txt').read_text())
    there = {path.parent.name for path in (ROOT / 'crates').glob('*/src')}
    for name in sorted(there ^ set(deps)):
        raise Wrong('%s is %s' % (name, 'in crates/ and not in crates.txt' if name in there else 'in crates.txt and not in crates/'))
    holds = {}
    for name in deps:
        source = next(path for part in ('lib.rt', 'main.rt') if (path := ROOT / 'crates' / name / 'src' / part).exists())
        holds[name] = held(source.read_text())
        if not holds[name]:
            raise Wrong('no comment heads %s' % source.relative_to(ROOT))
    return page(deps, holds)


def main(words):
    if words not in ([], ['--check']):
        sys.exit(__doc__)
    stands = ROOT / 'docs' / 'CRATES.md'
    try:
        text = made()
    except Wrong as wrong:
        sys.exit('crates.py: %s' % wrong)
    if not words:
        stands.write_text(text)
    elif not stands.exists() or stands.read_text() != text:
        sys.exit('crates.py: docs/CRATES.md is not what crates.txt and the crates say; tools/crates.py makes it again')


if __name__ == '__main__':
    main(sys.argv[1:])
