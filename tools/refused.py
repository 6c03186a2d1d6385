#!/usr/bin/env python3
"""Where each must-fail edit is first refused, read from what the gate printed: target/gate.log, which ./test leaves, or the LOGs that are
named, such as what `rt ci NAME` or `rt must-fail NAME` printed; of two lines on an edit the later counts.

    tools/refused.py [LOG...]          a line an edit: the crate, the edit, the place
    tools/refused.py --write [LOG...]  writes the places into the last table of docs/CONTRACTS.md; rows of edits of which no LOG speaks stay
    tools/refused.py --check [LOG...]  whether that table says the same of every edit; exit status 1 and the differences where it does not

A place is a function or a module of proofs, and in it the goal or the theorem: `copy_up: returns`. The gate cuts its lines off, and so a
long name of a goal: it ends in `..` then.

python3 -m doctest tools/refused.py runs the examples below."""
import pathlib, re, sys

ROOT = pathlib.Path(__file__).resolve().parent.parent
LOG = ROOT / 'target' / 'gate.log'
CONTRACTS = ROOT / 'docs' / 'CONTRACTS.md'
# A row of the document's table: the edit, the wrong program, the place.
ROW = re.compile(r'^(\| `(\w+/\w+)` \| [^|\n]+ \|)(?: `([^`]+)`)? \|$', flags=re.M)
# What the gate says of an edit: the crate, the edit, and the first thing that the check said; in brackets what is to be said of it.
SAID = re.compile(r'^rt: must-fail (\w+)/(\w+)\.edit: (?:refused, as it must be(?: \([^)]*\))?: (.*)|.*)$')
# An error: the file that it stands in, the line, and what in that file is refused.
ERROR = re.compile(r'^(?:\./)?((?:src|specs|proofs)/\S+?):(\d+):\d+: error(?:\[[\w-]+\])?: (?:`([^`]+)`)?')
# Where the toolchain makes a function's proof by itself: the source, the line, and the goal that it could not show.
UNPROVED = re.compile(r'^note: (?:\./)?(\S+?):(\d+):\d+: it is not proved .*?\(`([^`]+)(`?)')


def room(path, what, functions):
    """The function, the module or the source that a file of a crate with these functions is, and what is refused in it.

    >>> room('proofs/copy_up/Answers.antt', 'returns', ['copy_up'])
    'copy_up: returns'
    >>> room('proofs/book/lend/Invariants.antt', None, ['lend'])
    'lend'
    >>> room('proofs/+lay_decimal/Answers.antt', 'returns-then-n-lt10', ['lay_decimal'])
    'lay_decimal: returns-then-n-lt10'
    >>> room('proofs/+judgement/Answers.antt', 'right-returns-in-Found', ['right', 'left'])
    'right: returns-in-Found'
    >>> room('proofs/Called.antt', 'told', [])
    'Called: told'
    >>> room('specs/Told.antt', None, [])
    'specs/Told'
    """
    parts = pathlib.PurePath(path).with_suffix('').parts
    if parts[0] != 'proofs':
        return '/'.join(parts)
    named = [part for part in parts[1:] if part not in ('Answers', 'Invariants', 'Proof')]
    name = named[-1].lstrip('+')
    # a cycle has a name of its own, and its functions' names stand in front of their goals
    if name != named[-1] and name not in functions and what and '-' in what:
        return ': '.join(what.split('-', 1))
    return name + (': ' + what if what else '')


def functions_of(lines):
    """The names of the functions that begin in these lines of a source, in their order.

    >>> functions_of(['// f', 'pub extern "C" fn f() {', '}', 'pub(crate) fn g() {', '}', '    fn h();'])
    ['f', 'g', 'h']
    """
    return [found.group(1) for text in lines if (found := re.match(r'\s*(?:pub(?:\([^)]*\))? )?(?:extern "C" )?fn (\w+)', text))]


def function_at(lines, line):
    """The function in which a line of a source stands, its attributes included; None where it stands before any.

    >>> function_at(['fn f() {', '    0', '}', '#[unsafe(no_mangle)]', 'pub extern "C" fn g() {', '}'], 2)
    'f'
    >>> function_at(['fn f() {', '    0', '}', '#[unsafe(no_mangle)]', 'pub extern "C" fn g() {', '}'], 4)
    'g'
    """
    while line < len(lines) and lines[line - 1].lstrip().startswith('#['):
        line += 1
    return (functions_of(lines[:line]) or [None])[-1]


def place(crate, said):
    """The place that the first thing said of an edit names; None where it names none. An edit changes no number of a line."""
    error, unproved = ERROR.match(said), UNPROVED.match(said)
    path, line, what = (error or unproved).groups()[:3] if error or unproved else (None, 0, None)
    if unproved:
        what += '' if unproved.group(4) else '..'
    folder = ROOT / 'crates' / crate
    sources = {it.relative_to(folder).as_posix(): it.read_text().splitlines() for it in folder.glob('src/**/*.rt')}
    function = path in sources and function_at(sources[path], int(line))
    if function:
        # a cycle's goal begins with its function's name
        return function + (': ' + what.removeprefix(function + '-') if what else '')
    return path and room(path, what, [name for lines in sources.values() for name in functions_of(lines)])


def edits(logs):
    """Each edit of the repository, as CRATE/NAME, with the place where it is first refused; None where no log tells one."""
    found = {'%s/%s' % (it.parts[-3], it.stem): None for it in sorted((ROOT / 'crates').glob('*/must-fail/*.edit'))}
    for log in logs:
        for line in log.read_text().splitlines():
            match = SAID.match(line)
            if match and '/'.join(match.groups()[:2]) in found:
                found['/'.join(match.groups()[:2])] = place(match.group(1), match.group(3) or '')
    return found


def write(found):
    """Writes each edit's place into its row."""
    def row(match):
        place = found.get(match.group(2))
        return match.group(1) + ' `%s` |' % place if place else match.group()
    CONTRACTS.write_text(ROW.sub(row, CONTRACTS.read_text()))


def check(found):
    said = {edit: place for _, edit, place in ROW.findall(CONTRACTS.read_text())}
    wrong = ['%s: %s, and the document says %s' % (edit, place, said.get(edit)) for edit, place in found.items() if said.get(edit) != place]
    wrong += ['%s: there is no such edit' % edit for edit in said if edit not in found]
    print('\n'.join(wrong) or '%d edits are refused where the document says' % len(found))
    return 1 if wrong else 0


def main(words):
    option = words[:1] if words[:1] in (['--check'], ['--write']) else []
    named = [pathlib.Path(word) for word in words[len(option):]]
    if any(word.startswith('-') for word in words[len(option):]):
        sys.exit(__doc__)
    logs = named or [LOG]
    lacking = [log for log in logs if not log.exists()]
    if lacking:
        sys.exit('refused.py: there is no %s; ./test leaves target/gate.log' % lacking[0])
    found = edits(logs)
    if option == ['--check']:
        return check(found)
    if option == ['--write']:
        write(found)
        return 0
    print('\n'.join('%s  %s' % pair for pair in found.items()))
    return 0


if __name__ == '__main__':
    sys.exit(main(sys.argv[1:]))
