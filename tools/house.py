#!/usr/bin/env python3
"""Makes a house file from a readable list, and a readable list from a house file.

    house.py make LIST [FILE]      FILE is LIST with the ending .house where it is not given
    house.py read FILE [LIST]      LIST is standard output where it is not given

LIST and FILE may be - for standard input or output; they may not be one file. A file takes the place of an older one only once it is
whole. A list has one of these on each line, and # begins a remark:

    assume x : (| p0 p1)     an assumption with its name; the assumptions stand in the file as they do in the list
    goal (| p1 p0)           the goal
    let swap = (> p0 p1)     an abbreviation for the lines below; it does not come into the file

Formulas are the house text's: T, F, p0, U0, E0 (symbols 0 to 16383), (& A B), (| A B), (> A B). A symbol has one kind in a file: no two
of p0, U0 and E0 stand in it together. Equal formulas share a word; the words stand in the order in which the formulas close, those of the
assumptions first. For other words:

    unshared                 every formula has words of its own (--unshared says the same)
    word 2 = (> @0 @1)       the word at index 2; its parts are words, @0 the one at index 0. Word lines come before assume and goal,
                             which may say @2 too
    word 5..90 = p0          many equal words
    word 0 = 0x00000008      a word as a number

What the program would refuse with 2, 3, 4, 5 or 14 is an error, unless the list is unchecked:

    unchecked                on the first line (--unchecked says the same)
    assume "a b\\x00" : p0    a name with any bytes, at most 255
    after 00 ff              bytes after the end
    cut 3                    the last 3 bytes left out

Exit status 0, or 1 with one line that says where the error is, or 2 where the call itself is wrong.
"""
import argparse
import contextlib
import errno
import os
import re
import stat
import struct
import sys

SIGNS = "TFp&|>UE"
LEAVES, PAIRS = "pUE", "&|>"
MOST_FORMULAS, MOST_ASSUMPTIONS, LONGEST_FILE, LONGEST_NAME = 4096, 64, 32768, 32
FIELD, COUNT, WORD = 1 << 14, 1 << 16, 1 << 32
# a formula that reads back with more signs than this is listed word by word
LONGEST_FORMULA = 4096


class Fault(Exception):
    """What is wrong, with the line and the column where it is known."""

    def __init__(self, what, line=None, column=None):
        super().__init__(what)
        self.line, self.column = line, column

    def told(self, path):
        place = path
        place += ", line %d" % self.line if self.line else ""
        place += ", column %d" % self.column if self.column else ""
        return "%s: %s" % (place, self)


def word_of(kind, left=0, right=0):
    if not max(left, right) < FIELD:
        raise Fault("too many formulas: a word can name no part past word %d" % (FIELD - 1))
    return kind + 16 * left + 16 * FIELD * right


def fields_of(word):
    """Kind, left and right."""
    return word % 16, word // 16 % FIELD, word // 16 // FIELD


def leaf_word(leaf):
    return word_of(SIGNS.index(leaf[0]), int(leaf[1:] or 0))


def words_of(formulas, shared=True, words=()):
    """Some words and those of the formulas behind them, parts first, with the index of each formula; shared: equal ones have one word.

    A formula is a leaf's text, (sign, formula, formula), or the index of a word.
    """
    words, done, index = list(words), {}, []
    memo = {word: at for at, word in reversed(list(enumerate(words)))}
    for root in formulas:
        stack, values = [(root, False)], []
        while stack:
            formula, ready = stack.pop()
            if isinstance(formula, int):
                values.append(formula)
                continue
            if isinstance(formula, str):
                word = leaf_word(formula)
            elif not ready:
                if shared and id(formula) in done:
                    values.append(done[id(formula)])
                    continue
                stack += [(formula, True), (formula[2], False), (formula[1], False)]
                continue
            else:
                right, left = values.pop(), values.pop()
                word = word_of(SIGNS.index(formula[0]), left, right)
            at = memo.get(word) if shared else None
            if at is None:
                at = len(words)
                if at == COUNT - 1:
                    raise Fault("a file has no room for over %d formulas" % at)
                words.append(word)
                memo[word] = at
            if not isinstance(formula, str):
                done[id(formula)] = at
            values.append(at)
        index.append(values.pop())
    return words, index


def packed(words, assumptions, *goals):
    """The bytes of a house file; an assumption is an index and a name's bytes."""
    out = [struct.pack("<H%dI" % len(words), len(words), *words), struct.pack("<H", len(assumptions))]
    out += [struct.pack("<HB", index, len(name)) + name for index, name in assumptions]
    return b"".join(out) + struct.pack("<%dH" % (1 + len(goals)), len(goals), *goals)


class Reader:
    """The bytes of a file, taken from the front."""

    def __init__(self, data):
        self.data, self.at = data, 0

    def take(self, length, what):
        if self.at + length > len(self.data):
            raise Fault("byte %d: the file ends within %s" % (len(self.data), what))
        self.at += length
        return self.data[self.at - length : self.at]

    def number(self, width, what):
        return int.from_bytes(self.take(width, what), "little")


def unpacked(data):
    """The words, assumptions, goals and bytes after the end of a house file."""
    reader = Reader(data)
    count = reader.number(2, "the count of formulas")
    words = [reader.number(4, "word %d of %d" % (i, count)) for i in range(count)]
    count, assumptions = reader.number(2, "the count of assumptions"), []
    for i in range(count):
        what = "assumption %d of %d" % (i, count)
        index = reader.number(2, what)
        assumptions.append((index, reader.take(reader.number(1, what), what)))
    count = reader.number(2, "the count of goals")
    goals = [reader.number(2, "goal %d of %d" % (i, count)) for i in range(count)]
    return words, assumptions, goals, data[reader.at :]


def word_fault(at, word):
    """What breaks the layout in the word at an index."""
    kind, left, right = fields_of(word)
    if kind > 7:
        return "kind %d is none of 0 to 7" % kind
    sign = SIGNS[kind]
    if sign in PAIRS:
        return None if max(left, right) < at else "the parts of word %d are words below it, not @%d and @%d" % (at, left, right)
    if sign in LEAVES:
        return "a leaf has 0 at right, not %d" % right if right else None
    return "%s has zero fields, not %d and %d" % (sign, left, right) if left or right else None


def kind_fault(at, word, lowest):
    """What gives the symbol of a leaf a second kind; lowest has the lowest word of each sign and symbol so far, and gets this one."""
    kind, symbol, _ = fields_of(word)
    sign = SIGNS[kind]
    if sign not in LEAVES:
        return None
    lowest.setdefault((sign, symbol), at)
    others = [(lowest[other, symbol], other) for other in LEAVES if other != sign and (other, symbol) in lowest]
    if not others:
        return None
    here, (lower, other) = "%s%d" % (sign, symbol), min(others)
    return "word %d: symbol %d stands as %s here and as %s%d at word %d: a symbol has one kind" % (at, symbol, here, other, symbol, lower)


def word_faults(words):
    """What is wrong with each word: it breaks the layout, or a lower word has its symbol as another kind of leaf."""
    lowest = {}
    for at, word in enumerate(words):
        yield word_fault(at, word) or kind_fault(at, word, lowest)


def name_fault(name, earlier):
    if not 1 <= len(name) <= LONGEST_NAME:
        return "a name has 1 to %d bytes, not %d" % (LONGEST_NAME, len(name))
    if not re.fullmatch(rb"[A-Za-z0-9_]*", name):
        return "a name is made of A-Z, a-z, 0-9 and _"
    return "the name %s stands on an earlier line" % name.decode() if name in earlier else None


def index_fault(index, count):
    return None if index < count else "there is no word @%d, the last one is @%d" % (index, count - 1)


def faults(words, assumptions, goals, size):
    """Each thing that the program would refuse, with the part of the file where it is: its kind and its number there."""
    for i, fault in enumerate(word_faults(words)):
        yield fault, "word", i
    for i, (index, name) in enumerate(assumptions):
        yield index_fault(index, len(words)), "assume", i
        yield name_fault(name, [other for _, other in assumptions[:i]]), "assume", i
    for i, index in enumerate(goals):
        yield index_fault(index, len(words)), "goal", i
    most = [("formulas", len(words), MOST_FORMULAS), ("assumptions", len(assumptions), MOST_ASSUMPTIONS)]
    for what, count, bound in [*most, ("bytes", size, LONGEST_FILE)]:
        yield "a file holds at most %d %s, not %d" % (bound, what, count) if count > bound else None, "file", 0
    yield None if len(goals) == 1 else "a file has one goal, not %d" % len(goals), "file", 0


TOKEN = re.compile(r'\s*(?:#.*|([()&|>:=]|"(?:[^"\\]|\\.)*"|[^\s()&|>:="#]+|"))')
LEAF = re.compile(r"T|F|[pUE](0|[1-9][0-9]*)")
NAME = re.compile(r"[A-Za-z0-9_]+")
NUMBER = re.compile(r"0x[0-9a-fA-F]+|[0-9]+")
RANGE = re.compile(r"([0-9]+)(?:\.\.([0-9]+))?")


def tokens_of(text):
    """The tokens of a line, each with its column."""
    return [(match[1], match.start(1) + 1) for match in TOKEN.finditer(text) if match[1]]


class Line:
    """A line's tokens, taken from the front."""

    def __init__(self, number, text):
        self.number, self.tokens, self.at = number, tokens_of(text), 0
        self.end = len(text.rstrip()) + 1

    def fault(self, what, column=None):
        return Fault(what, self.number, column or self.column())

    def column(self):
        return self.tokens[self.at][1] if self.at < len(self.tokens) else self.end

    def peek(self):
        return self.tokens[self.at][0] if self.at < len(self.tokens) else None

    def take(self, wanted):
        if self.peek() is None:
            raise self.fault("the line ends too soon: here comes " + wanted)
        self.at += 1
        return self.tokens[self.at - 1][0]

    def sign(self, sign):
        if self.peek() != sign:
            raise self.fault("here comes " + sign)
        self.at += 1

    def number_below(self, bound, token, column):
        if not NUMBER.fullmatch(token):
            raise self.fault("'%s' is no number" % token, column)
        number = int(token, 0) if token.startswith("0x") else int(token)
        if number >= bound:
            raise self.fault("%s is over %d" % (token, bound - 1), column)
        return number

    def done(self):
        if self.peek() is not None:
            raise self.fault("the line should end before '%s'" % self.peek())


def closed(line, opened):
    """The formula of a bracket that closes: its sign, its column and its parts."""
    sign, column, parts = opened
    if len(parts) != 2:
        raise line.fault("%s takes two formulas, the bracket of column %d has %d" % (sign, column, len(parts)))
    return (sign, *parts)


def simple(line, token, column, book):
    """A leaf, the index of a word, or what a name stands for."""
    if token in book.lets:
        return book.lets[token]
    if token.startswith("@"):
        index = line.number_below(COUNT, token[1:], column)
        if index >= len(book.words) and not book.unchecked:
            raise line.fault("no word line gives %s" % token, column)
        return index
    if not LEAF.fullmatch(token):
        known = "T, F, p0, U0, E0, (& A B), (| A B), (> A B), @0 or a name that a let above gives"
        raise line.fault("'%s' is no formula; a formula is %s" % (token, known), column)
    line.number_below(FIELD, token[1:] or "0", column)
    return token


def formula_in(line, book):
    """The formula at the front of a line's tokens."""
    stack = []
    while True:
        column = line.column()
        token = line.take("a formula" if not stack else "the ) of the bracket of column %d, or a formula" % stack[-1][1])
        if token == "(":
            sign = line.take("&, | or >")
            if sign not in ("&", "|", ">"):
                raise line.fault("after ( comes &, | or >, not '%s'" % sign, column + 1)
            stack.append((sign, column, []))
            continue
        if token == ")":
            line.at -= 1
            if not stack:
                raise line.fault("this ) closes no bracket")
            formula = closed(line, stack.pop())
            line.at += 1
        else:
            formula = simple(line, token, column, book)
        if not stack:
            return formula
        stack[-1][2].append(formula)


def name_in(line):
    """The bytes of an assumption's name, plain or in quotes."""
    column, token = line.column(), line.take("a name")
    if token in ("(", ")", "&", "|", ">", ":", "="):
        raise line.fault("here comes a name, not '%s'" % token, column)
    if token.startswith('"'):
        pieces = re.fullmatch(r'"((?:[^"\\]|\\["\\]|\\x[0-9a-fA-F]{2})*)"', token)
        if not pieces:
            raise line.fault('a name in quotes ends with ", and has \\xHH, \\" and \\\\ for other bytes', column)
        unescaped = lambda match: bytes([int(match[1], 16)]) if match[1] else match[2]
        name = re.sub(rb'\\(?:x([0-9a-fA-F]{2})|(["\\]))', unescaped, pieces[1].encode())
    else:
        name = token.encode()
    if len(name) > 255:
        raise line.fault("a file has no room for a name of %d bytes, 255 are the most" % len(name), column)
    return name


class Book:
    """What the lines of a list come to."""

    def __init__(self, unshared=False, unchecked=False):
        self.unshared, self.unchecked = unshared, unchecked
        self.words, self.assumptions, self.goals, self.lets = [], [], [], {}
        self.after, self.cut = b"", 0
        self.lines = {"word": [], "assume": [], "goal": [], "file": [None]}

    def add(self, line):
        column, keyword = line.column(), line.take("a keyword")
        known = {name: getattr(self, name + "_line") for name in KEYWORDS}
        if keyword not in known:
            raise line.fault("'%s' is none of %s" % (keyword, ", ".join(KEYWORDS)), column)
        known[keyword](line)
        line.done()

    def assume_line(self, line):
        name = name_in(line)
        line.sign(":")
        self.assumptions.append((formula_in(line, self), name))
        self.lines["assume"].append(line.number)

    def goal_line(self, line):
        self.goals.append(formula_in(line, self))
        self.lines["goal"].append(line.number)

    def let_line(self, line):
        column, name = line.column(), line.take("a name")
        if not NAME.fullmatch(name) or LEAF.fullmatch(name):
            raise line.fault("'%s' is no name for a formula" % name, column)
        if name in self.lets:
            raise line.fault("'%s' stands for a formula already" % name, column)
        line.sign("=")
        self.lets[name] = formula_in(line, self)

    def word_line(self, line):
        if self.assumptions or self.goals:
            raise line.fault("the word lines come before assume and goal", 1)
        column, match = line.column(), RANGE.fullmatch(line.take("an index"))
        if not match or int(match[1]) != len(self.words):
            raise line.fault("here comes the index of the next word, %d" % len(self.words), column)
        last = line.number_below(COUNT - 1, match[2] or match[1], column)
        line.sign("=")
        column = line.column()
        if NUMBER.fullmatch(line.peek() or ""):
            word = line.number_below(WORD, line.take("a number"), column)
        else:
            word = self.one_word(line, formula_in(line, self), column)
        for _ in range(len(self.words), last + 1):
            self.words.append(word)
            self.lines["word"].append(line.number)

    def one_word(self, line, formula, column):
        """The word of a leaf, or of a sign over two words."""
        parts = formula[1:] if isinstance(formula, tuple) else ()
        if isinstance(formula, int) or not all(isinstance(part, int) for part in parts):
            raise line.fault("a word is a leaf, a number, or a sign over two words: (> @0 @1)", column)
        if any(part >= FIELD for part in parts):
            raise line.fault("a word's part is over %d" % (FIELD - 1), column)
        return leaf_word(formula) if isinstance(formula, str) else word_of(SIGNS.index(formula[0]), *parts)

    def unshared_line(self, _line):
        self.unshared = True

    def unchecked_line(self, _line):
        self.unchecked = True

    def after_line(self, line):
        while line.peek() is not None:
            column, token = line.column(), line.take("bytes")
            if not re.fullmatch(r"([0-9a-fA-F]{2})+", token):
                raise line.fault("'%s' is not bytes, two hexadecimal digits each" % token, column)
            self.after += bytes.fromhex(token)

    def cut_line(self, line):
        column = line.column()
        self.cut = line.number_below(WORD, line.take("how many bytes"), column)

    def file(self):
        """The bytes of the house file."""
        formulas = [formula for formula, _ in self.assumptions] + self.goals
        words, index = words_of(formulas, not self.unshared, self.words)
        if max(len(self.assumptions), len(self.goals)) >= COUNT:
            raise Fault("a file has no room for over %d assumptions or goals" % (COUNT - 1))
        assumptions = list(zip(index, (name for _, name in self.assumptions)))
        goals = index[len(assumptions) :]
        data = packed(words, assumptions, *goals)
        if self.unchecked:
            return data[: max(0, len(data) - self.cut)] + self.after
        if self.cut or self.after:
            raise Fault("cut and after are for lists with a line unchecked")
        for fault, part, i in faults(words, assumptions, goals, len(data)):
            if fault:
                raise Fault(fault, self.line_of(part, i, index))
        return data

    def line_of(self, part, i, index):
        """The line that a part of the file is from. A word that no word line gives is of the first formula that does not close below it."""
        if i < len(self.lines[part]):
            return self.lines[part][i]
        formula_lines = self.lines["assume"] + self.lines["goal"]
        return next(line for at, line in zip(index, formula_lines) if at >= i)


KEYWORDS = ["assume", "goal", "let", "word", "unshared", "unchecked", "after", "cut"]


def made(text, unshared=False, unchecked=False):
    """The house file of a list."""
    book = Book(unshared, unchecked)
    for number, row in enumerate(text.split("\n"), 1):
        line = Line(number, row)
        if line.tokens:
            book.add(line)
    return book.file()


def trees_of(words, longest):
    """The formula of each word; none where the layout is broken, or the formula has more signs than the longest."""
    trees, sizes = [], []
    for at, word in enumerate(words):
        kind, left, right = fields_of(word)
        tree, size = None, 1
        if not word_fault(at, word):
            if SIGNS[kind] not in PAIRS:
                tree = SIGNS[kind] + (str(left) if SIGNS[kind] in LEAVES else "")
            elif trees[left] is not None and trees[right] is not None:
                tree, size = (SIGNS[kind], trees[left], trees[right]), 1 + sizes[left] + sizes[right]
        trees.append(tree if size <= longest else None)
        sizes.append(size)
    return trees


def text_of(formula):
    """A formula in the house text's notation."""
    out, stack = [], [formula]
    while stack:
        part = stack.pop()
        if isinstance(part, tuple):
            stack += [")", part[2], " ", part[1], "(%s " % part[0]]
        else:
            out.append("@%d" % part if isinstance(part, int) else part)
    return "".join(out)


def name_text(name):
    if NAME.fullmatch(name.decode("latin-1")):
        return name.decode()
    plain = lambda byte: chr(byte) if 32 <= byte < 127 and chr(byte) not in '"\\' else "\\x%02x" % byte
    return '"%s"' % "".join(map(plain, name))


def word_text(at, word, tree):
    """A word over words, and its formula as a remark where that is short."""
    kind, left, right = fields_of(word)
    if word_fault(at, word):
        return "0x%08x    # kind %d, left %d, right %d" % (word, kind, left, right)
    if SIGNS[kind] not in PAIRS:
        return tree
    text = text_of((SIGNS[kind], left, right))
    whole = text_of(tree) if tree else ""
    return text + ("    # " + whole if 0 < len(whole) <= 60 else "")


def word_lines(words, trees):
    """The word lines, equal words in a row on one line."""
    at = 0
    while at < len(words):
        last = at
        while last + 1 < len(words) and words[last + 1] == words[at] and not word_fault(at, words[at]):
            last += 1
        place = "%d" % at if at == last else "%d..%d" % (at, last)
        yield "word %s = %s" % (place, word_text(at, words[at], trees[at]))
        at = last + 1


def list_lines(assumptions, goals, shown):
    for index, name in assumptions:
        yield "assume %s : %s" % (name_text(name), text_of(shown(index)))
    for index in goals:
        yield "goal " + text_of(shown(index))


def listed(data):
    """The list of a house file: made again, it gives the same bytes. The plainest way to say the words is taken."""
    words, assumptions, goals, after = unpacked(data)
    head = []
    if after or any(fault for fault, _, _ in faults(words, assumptions, goals, len(data))):
        head = ["unchecked"]
    tail = ["after " + after.hex(" ")] if after else []
    trees = trees_of(words, LONGEST_FORMULA)
    tree = lambda index: trees[index] if index < len(trees) and trees[index] is not None else index
    plain = list(list_lines(assumptions, goals, tree))
    for way in [[], ["unshared"]]:
        text = "\n".join([*head, *way, *plain, *tail, ""])
        if remade(text) == data:
            return text
    exact = list_lines(assumptions, goals, lambda index: index)
    text = "\n".join([*head, *word_lines(words, trees), *exact, *tail, ""])
    if remade(text) != data:
        raise Fault("the list would not give the same bytes")
    return text


def remade(text):
    try:
        return made(text)
    except Fault:
        return None


@contextlib.contextmanager
def told_of(name):
    """Gives an error of the system the name that the user knows."""
    try:
        yield
    except OSError as error:
        raise OSError(error.errno, error.strerror, name) from error


def descriptor(stream, name):
    """The number of a standard stream; Python has no stream where the caller has closed it."""
    if stream is None:
        raise OSError(errno.EBADF, os.strerror(errno.EBADF), name)
    return stream.fileno()


def read_bytes(path):
    name = "standard input" if path == "-" else path
    with told_of(name), open(descriptor(sys.stdin, name) if path == "-" else path, "rb", closefd=path != "-") as source:
        return source.read()


def write_output(data):
    """Writes past Python's own buffer: what stays in it after a failure is tried again at the end, with a traceback."""
    name = "standard output"
    with told_of(name):
        number = descriptor(sys.stdout, name)
        while data:
            data = data[os.write(number, data) :]


def replace_file(path, data):
    """Writes a new file beside the old one and gives it the old one's name, so that a failure leaves the old one whole."""
    new = os.path.join(os.path.dirname(path), ".house-%d" % os.getpid())
    mode = None
    if os.path.exists(path):
        # a file that may not be written is not replaced either
        with open(path, "r+b") as old:
            mode = stat.S_IMODE(os.fstat(old.fileno()).st_mode)
    target = open(new, "xb")
    try:
        with target:
            target.write(data)
        if mode is not None:
            os.chmod(new, mode)
        os.replace(new, path)
    except BaseException:
        os.unlink(new)
        raise


def write_bytes(path, data):
    if path == "-":
        write_output(data)
        return
    with told_of(path):
        # a link goes on leading to its file, and a device or a pipe is written to, not replaced
        real = os.path.realpath(path)
        if os.path.isfile(real) or not os.path.exists(real):
            replace_file(real, data)
            return
        with open(path, "wb") as target:
            target.write(data)


def status_of(path, stream):
    """What the system says of the file behind a path or a stream; none where there is no file."""
    try:
        return os.fstat(descriptor(stream, path)) if path == "-" else os.stat(path)
    except OSError:
        return None


def is_same_file(source, target):
    """Whether writing the target would change the source, by whatever names; a terminal may be both."""
    read, written = status_of(source, sys.stdin), status_of(target, sys.stdout)
    if not read or not stat.S_ISREG(read.st_mode):
        return False
    same_path = "-" not in (source, target) and os.path.realpath(source) == os.path.realpath(target)
    return same_path or written is not None and os.path.samestat(read, written)


def as_text(data):
    try:
        return data.decode()
    except UnicodeDecodeError as error:
        raise Fault("not a text", data[: error.start].count(b"\n") + 1) from error


def run(options):
    data = read_bytes(options.source)
    plain = options.what == "read" or options.source == "-"
    target = options.target or ("-" if plain else os.path.splitext(options.source)[0] + ".house")
    if is_same_file(options.source, target):
        raise Fault("this is the file to write, too; name another one")
    if options.what == "read":
        write_bytes(target, listed(data).encode())
    else:
        write_bytes(target, made(as_text(data), options.unshared, options.unchecked))


class Help(argparse.Action):
    """Writes the help as any other output, so that a failure is told in the same way."""

    def __call__(self, parser, *_):
        write_output(parser.format_help().encode())
        parser.exit()


def options_of(words):
    parser = argparse.ArgumentParser(description=__doc__, formatter_class=argparse.RawDescriptionHelpFormatter, add_help=False)
    parser.add_argument("-h", "--help", action=Help, nargs=0, help="write this and end")
    parser.add_argument("what", choices=["make", "read"])
    parser.add_argument("source")
    parser.add_argument("target", nargs="?")
    parser.add_argument("--unshared", action="store_true", help="make: every formula has words of its own")
    parser.add_argument("--unchecked", action="store_true", help="make: also what the program would refuse")
    return parser.parse_args(words)


def main(words):
    """The exit status. What went wrong is one line on standard error, where that is open."""
    said = None
    try:
        options = options_of(words)
        run(options)
    except Fault as fault:
        said = fault.told(options.source)
    except OSError as error:
        said = "%s: %s" % (error.filename, error.strerror)
    if said and sys.stderr:
        print(said.replace("\n", "\\n"), file=sys.stderr)
    return 1 if said else 0


if __name__ == "__main__":
    sys.exit(main(sys.argv[1:]))
