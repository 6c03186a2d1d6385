#!/usr/bin/env python3
"""The tests of house.py: python3 tools/test_house.py"""
import itertools
import os
import resource
import stat
import subprocess
import sys
import tempfile
import time
import unittest
from importlib.machinery import SourceFileLoader
from importlib.util import module_from_spec, spec_from_loader

sys.dont_write_bytecode = True
HERE = os.path.dirname(os.path.abspath(__file__))
sys.path.insert(0, HERE)
from house import FIELD, LEAVES, Fault, faults, leaf_word, listed, made, packed, unpacked, word_of

EXAMPLES = os.path.join(HERE, "..", "examples")
HOUSE = [sys.executable, os.path.join(HERE, "house.py")]
NAMES_OVER = "\n".join("assume x%d : p0" % i for i in range(65))


def books():
    """The generator of the oracle's books."""
    loader = SourceFileLoader("books", os.path.join(HERE, "..", "oracle", "books"))
    module = module_from_spec(spec_from_loader("books", loader))
    loader.exec_module(module)
    return module


def fault_of(text):
    """What is said of a list, as the command says it."""
    try:
        made(text)
    except Fault as fault:
        return fault.told("LIST")
    return None


def ran(*words, **how):
    """The exit status of a run of the command, what it wrote and what it said."""
    run = subprocess.run([*HOUSE, *words], **{"stdout": subprocess.PIPE, "stderr": subprocess.PIPE, **how})
    return run.returncode, run.stdout, run.stderr.decode()


class Made(unittest.TestCase):
    def test_the_whole_case_has_the_written_words(self):
        words, assumptions, goals, after = unpacked(made("goal (> (> (| p0 (> p0 F)) F) F)"))
        self.assertEqual(words, [2, 1, word_of(5, 0, 1), word_of(4, 0, 2), word_of(5, 3, 1), word_of(5, 4, 1)])
        self.assertEqual((assumptions, goals, after), ([], [5], b""))

    def test_every_byte_of_a_small_file(self):
        file = made("assume x : U5\nassume _1 : (& T E16383)  # a remark\n\ngoal F")
        words = "05 00  56 00 00 00  00 00 00 00  f7 ff 03 00  13 00 08 00  01 00 00 00"
        self.assertEqual(file.hex(), (words + "02 00  00 00 01 78  03 00 02 5f 31  01 00 04 00").replace(" ", ""))

    def test_unshared_words_are_apart(self):
        self.assertEqual(unpacked(made("goal (& p0 p0)"))[0], [2, word_of(3, 0, 0)])
        apart = [2, 2, word_of(3, 0, 1)]
        self.assertEqual(unpacked(made("unshared\ngoal (& p0 p0)"))[0], apart)
        self.assertEqual(unpacked(made("goal (& p0 p0)", unshared=True))[0], apart)

    def test_let_is_an_abbreviation(self):
        self.assertEqual(made("let q = (> p0 F)\nassume x : q\ngoal (& q q)"), made("assume x : (> p0 F)\ngoal (& (> p0 F) (> p0 F))"))

    def test_let_shares_what_would_not_fit(self):
        rows = ["let d0 = T"] + ["let d%d = (& d%d d%d)" % (i + 1, i, i) for i in range(200)]
        self.assertEqual(len(unpacked(made("\n".join([*rows, "goal d200"])))[0]), 201)
        told = "LIST: too many formulas: a word can name no part past word 16383"
        self.assertEqual(fault_of("\n".join(["unshared", *rows, "goal d200"])), told)

    def test_word_lines_are_exact(self):
        file = made("word 0 = p0\nword 1 = p0\nword 2..3 = (> @1 @0)\nassume x : (> p0 @1)\ngoal @3")
        arrow, own = word_of(5, 1, 0), word_of(5, 0, 1)
        self.assertEqual(unpacked(file), ([2, 2, arrow, arrow, own], [(4, b"x")], [3], b""))

    def test_raw_words(self):
        self.assertEqual(unpacked(made("word 0 = 0x22\ngoal @0"))[0], [34])
        self.assertEqual(unpacked(made("unchecked\nword 0 = 8\nword 1 = (> @1 @9)\ngoal @7")), ([8, word_of(5, 1, 9)], [], [7], b""))

    def test_unchecked_writes_what_the_program_refuses(self):
        name = "n" * 33
        self.assertEqual(unpacked(made("unchecked\nassume %s : T\ngoal T" % name))[1], [(0, name.encode())])
        self.assertEqual(unpacked(made("assume x : T\nassume x : T\ngoal T", unchecked=True))[1], [(0, b"x")] * 2)
        self.assertEqual(unpacked(made('unchecked\nassume "a \\x00\\"\\\\" : T\ngoal T'))[1], [(0, b'a \0"\\')])
        self.assertEqual(unpacked(made("unchecked\n" + NAMES_OVER + "\ngoal T"))[1][64], (0, b"x64"))
        self.assertEqual(unpacked(made("unchecked\nword 0..4096 = p0\ngoal @0"))[0], [2] * 4097)
        self.assertEqual(unpacked(made("unchecked\ngoal T\ngoal F\nafter 00 ff"))[2:], ([0, 1], b"\0\xff"))
        self.assertEqual(made("unchecked\ncut 3\ngoal T"), made("goal T")[:-3])

    def test_depth_is_no_hindrance(self):
        deep = "goal " + "(> T " * 2000 + "p0" + ")" * 2000
        self.assertEqual(listed(made(deep)), deep + "\n")


# What a faulty list is told, by what is wrong with it: the list, where the fault stands, and a part of what is said.
FAULTS = {
    "formulas": [
        ("goal", ", line 1, column 5", "here comes a formula"),
        ("\ngoal q", ", line 2, column 6", "'q' is no formula"),
        ("goal p16384", ", line 1, column 6", "over 16383"),
        ("goal p01", ", line 1, column 6", "'p01' is no formula"),
        ("goal (p0 p1)", ", line 1, column 7", "after ( comes &, | or >, not 'p0'"),
        ("goal (& p0", ", line 1, column 11", "the ) of the bracket of column 6"),
        ("goal (& p0)", ", line 1, column 11", "the bracket of column 6 has 1"),
        ("goal (& p0 p1 T)", ", line 1, column 16", "the bracket of column 6 has 3"),
        ("goal p0)", ", line 1, column 8", "the line should end before ')'"),
        ("goal )", ", line 1, column 6", "closes no bracket"),
        ("goal @0", ", line 1, column 6", "no word line gives @0"),
    ],
    "lines": [
        ("gaol p0", ", line 1, column 1", "'gaol' is none of assume, goal"),
        ("assume x p0", ", line 1, column 10", "here comes :"),
        ("assume : p0", ", line 1, column 8", "here comes a name, not ':'"),
        ('assume "x : p0', ", line 1, column 8", "a name in quotes"),
        ("let p0 = T", ", line 1, column 5", "'p0' is no name"),
        ("let a = T\nlet a = F", ", line 2, column 5", "already"),
        ("goal T\nword 0 = T", ", line 2, column 1", "come before"),
        ("word 1 = T", ", line 1, column 6", "the next word, 0"),
        ("word 0 = (> T F)", ", line 1, column 10", "a sign over two words"),
        ("word 0 = 0x100000000", ", line 1, column 10", "over 4294967295"),
        ("after 0", ", line 1, column 7", "two hexadecimal digits"),
        ("goal T\nafter 00", "", "unchecked"),
    ],
    "what a file cannot hold": [
        ("unchecked\nassume %s : T" % ("n" * 256), ", line 2, column 8", "256 bytes, 255 are the most"),
        ("unchecked\nword 0..65535 = T\ngoal T", ", line 2, column 6", "over 65534"),
    ],
    "what the program refuses": [
        ("assume x : T\nassume %s : T\ngoal T" % ("n" * 33), ", line 2", "1 to 32 bytes, not 33"),
        ('assume "" : T\ngoal T', ", line 1", "1 to 32 bytes, not 0"),
        ("assume x : T\nassume x : F\ngoal T", ", line 2", "the name x stands on an earlier line"),
        ("assume x-y : T\ngoal T", ", line 1", "A-Z, a-z, 0-9 and _"),
        (NAMES_OVER + "\ngoal T", "", "at most 64 assumptions, not 65"),
        ("word 0..4095 = p0\ngoal T", "", "at most 4096 formulas, not 4097"),
        ("assume x : T", "", "one goal, not 0"),
        ("goal T\ngoal F", "", "one goal, not 2"),
        ("word 0 = T\nword 1 = 8\ngoal @0", ", line 2", "kind 8"),
        ("word 0 = 16\ngoal @0", ", line 1", "T has zero fields, not 1 and 0"),
        ("word 0 = 0x40002\ngoal @0", ", line 1", "0 at right, not 1"),
        ("word 0 = 3\ngoal @0", ", line 1", "words below it, not @0 and @0"),
    ],
}


class Faults(unittest.TestCase):
    def said(self, text, place, part):
        told = fault_of(text)
        self.assertIsNotNone(told, text)
        self.assertTrue(told.startswith("LIST" + place + ": "), told)
        self.assertIn(part, told)

    def test_each_is_told_with_its_place(self):
        for wrong, rows in FAULTS.items():
            for text, place, part in rows:
                with self.subTest(wrong, text=text):
                    self.said(text, place, part)


class Kinds(unittest.TestCase):
    """A symbol has one kind: what is said of words where it has two, and what is no such case."""

    def told(self, at, symbol, here, there, lower):
        """What is said of the word at an index, whose symbol has another kind at a lower one."""
        leaves = (here, symbol, there, symbol, lower)
        return "word %d: symbol %d stands as %s%d here and as %s%d at word %d: a symbol has one kind" % (at, symbol, *leaves)

    def found(self, *words):
        """What is said of each word, a leaf by its text."""
        words = [leaf_word(word) if isinstance(word, str) else word for word in words]
        return [fault for fault, part, _ in faults(words, [], [0], 0) if part == "word"]

    def test_the_message(self):
        told = "LIST, line 2: word 1: symbol 5 stands as E5 here and as U5 at word 0: a symbol has one kind"
        self.assertEqual(fault_of("assume x : U5\ngoal E5"), told)

    def test_each_pair_in_both_orders(self):
        for first, second in itertools.permutations(LEAVES, 2):
            for symbol in [0, 5, FIELD - 1]:
                told = self.told(1, symbol, second, first, 0)
                self.assertEqual(self.found("%s%d" % (first, symbol), "%s%d" % (second, symbol)), [None, told])

    def test_three_kinds(self):
        told = [None, self.told(1, 5, "U", "p", 0), self.told(2, 5, "E", "p", 0), self.told(3, 5, "p", "U", 1)]
        self.assertEqual(self.found("p5", "U5", "E5", "p5"), told)

    def test_equal_words_and_other_symbols(self):
        self.assertEqual(self.found("p5", "p5", "U6", "E4", "U6", "p5"), [None] * 6)
        self.assertIsNone(fault_of("unshared\nassume x : U5\ngoal (& U5 U5)"))

    def test_parts_are_no_symbols(self):
        self.assertEqual(self.found("p5", word_of(3, 0, 0), word_of(4, 1, 0), word_of(5, 1, 1), "U0", "E1"), [None] * 6)
        self.assertEqual(self.found("T", "F", "U0"), [None] * 3)

    def test_a_word_that_nothing_uses(self):
        told = "LIST, line 3: " + self.told(2, 5, "U", "p", 1)
        self.assertEqual(fault_of("word 0 = T\nword 1 = p5\nword 2 = U5\ngoal @0"), told)

    def test_the_lowest_fault_is_told(self):
        self.assertEqual(fault_of("word 0 = p5\nword 1 = U5\nword 2 = 8\ngoal @0"), "LIST, line 2: " + self.told(1, 5, "U", "p", 0))
        self.assertEqual(fault_of("word 0 = p5\nword 1 = 8\nword 2 = U5\ngoal @0"), "LIST, line 2: kind 8 is none of 0 to 7")
        self.assertEqual(fault_of("assume x : p5\nassume x : p5\ngoal U5"), "LIST, line 3: " + self.told(1, 5, "U", "p", 0))

    def test_the_line_is_that_of_the_formula(self):
        told = "LIST, line 4: " + self.told(4, 1, "E", "p", 3)
        self.assertEqual(fault_of("let a = E1\nassume x : (> p0 T)\nassume y : p1\nassume z : (& p0 a)\ngoal (| a U2)"), told)
        told = "LIST, line 2: " + self.told(1, 0, "U", "p", 0)
        self.assertEqual(fault_of("word 0 = p0\nassume x : (> @0 U0)\ngoal @0"), told)
        self.assertEqual(fault_of("goal E0\nassume x : p0"), "LIST, line 1: " + self.told(1, 0, "E", "p", 0))

    def test_a_let_alone_is_in_no_file(self):
        self.assertIsNone(fault_of("let a = U5\ngoal p5"))

    def test_unchecked_writes_it(self):
        text = "unchecked\nassume x : U5\ngoal E5\n"
        self.assertEqual(unpacked(made(text)), ([leaf_word("U5"), leaf_word("E5")], [(0, b"x")], [1], b""))
        self.assertEqual(listed(made(text)), text)

    def test_as_many_words_as_symbols_take_no_square_of_time(self):
        atoms, begun = ["p%d" % symbol for symbol in range(FIELD)], time.process_time()
        self.assertEqual(self.found(*atoms), [None] * FIELD)
        last = self.told(FIELD - 1, 0, "U", "p", 0)
        self.assertEqual(self.found(*atoms[:-1], "U0"), [None] * (FIELD - 1) + [last])
        self.assertLess(time.process_time() - begun, 2)


class RoundTrips(unittest.TestCase):
    def same(self, file):
        self.assertEqual(made(listed(file)).hex(), file.hex())

    def test_the_plainest_list_is_taken(self):
        for text in ["goal (& p0 p0)\n", "unshared\ngoal (& p0 p0)\n", "assume x : T\ngoal (> (| p0 p1) U3)\n"]:
            self.assertEqual(listed(made(text)), text)
        words = "word 0..2 = p0\nword 3 = (> @2 @1)    # (> p0 p0)\nassume x : @3\ngoal @0\n"
        self.assertEqual(listed(made(words)), words)
        broken = 'unchecked\nword 0 = 0x00000008    # kind 8, left 0, right 0\nassume "a b" : @3\ngoal @0\nafter 00 01\n'
        self.assertEqual(listed(made(broken)), broken)

    def test_the_books_of_the_oracle(self):
        makers, count = books(), 0
        for name in ["random", "names", "chains", "limits"]:
            for i, file in enumerate(makers.books(name, 7, 400)):
                if name != "limits" or i % 4 == 0:
                    self.same(file)
                    count += 1
        self.assertGreater(count, 400)

    def test_damaged_files_are_kept_or_said_to_be_cut(self):
        kept = cut = 0
        for file in list(books().books("damaged", 7, 400))[::9]:
            try:
                self.same(file)
                kept += 1
            except Fault as fault:
                self.assertIn("the file ends within", str(fault))
                cut += 1
        self.assertGreater(min(kept, cut), 300)

    def test_cut_at_every_byte(self):
        file = packed([2, 1], [(0, b"ab")], 1)
        for at in range(len(file)):
            with self.assertRaises(Fault) as caught:
                listed(file[:at])
            self.assertIn("byte %d: the file ends within" % at, str(caught.exception))
        self.same(file)


class Command(unittest.TestCase):
    def test_streams(self):
        self.assertEqual(ran("make", "-", input=b"goal F"), (0, made("goal F"), ""))
        self.assertEqual(ran("read", "-", input=made("goal F")), (0, b"goal F\n", ""))
        self.assertEqual(ran("make", "-", "--unshared", input=b"goal (& T T)"), (0, made("unshared\ngoal (& T T)"), ""))
        self.assertEqual(ran("make", "-", "--unchecked", input=b"goal T\nafter 00"), (0, made("goal T") + b"\0", ""))

    def test_files(self):
        with tempfile.TemporaryDirectory() as folder:
            path = os.path.join(folder, "book.txt")
            with open(path, "w") as out:
                out.write("goal T\n")
            self.assertEqual(ran("make", path), (0, b"", ""))
            self.assertEqual(ran("read", os.path.join(folder, "book.house")), (0, b"goal T\n", ""))

    def test_errors(self):
        self.assertEqual(ran("make", "-", input=b"goal T\ngoal q\n")[:2], (1, b""))
        self.assertEqual(ran("make", "-", input=b"goal T\n\xff\n"), (1, b"", "-, line 2: not a text\n"))
        self.assertEqual(ran("read", "-", input=b"\1"), (1, b"", "-: byte 1: the file ends within the count of formulas\n"))
        self.assertEqual(ran("read", "no such file"), (1, b"", "no such file: No such file or directory\n"))
        self.assertEqual(ran("write", "-")[0], 2)


class Written(unittest.TestCase):
    """What becomes of the files that the command reads and writes."""

    def setUp(self):
        folder = tempfile.TemporaryDirectory()
        self.addCleanup(folder.cleanup)
        self.folder = folder.name

    def at(self, name):
        return os.path.join(self.folder, name)

    def put(self, name, data):
        with open(self.at(name), "wb") as out:
            out.write(data)
        return self.at(name)

    def held(self, name):
        with open(self.at(name), "rb") as source:
            return source.read()

    def refuses(self, source, *words, **how):
        told = "%s: this is the file to write, too; name another one\n" % source
        self.assertEqual(ran(*words, **how), (1, b"", told))
        self.assertEqual(self.held("book.house"), b"goal T\n")

    def test_the_source_is_not_overwritten(self):
        book = self.put("book.house", b"goal T\n")
        self.refuses(book, "make", book)
        self.refuses(book, "make", book, book)
        self.refuses(book, "make", book, os.path.join(self.folder, ".", "book.house"))
        with open(book) as given:
            self.refuses("-", "make", "-", book, stdin=given)

    def test_nor_through_a_link(self):
        book = self.put("book.house", b"goal T\n")
        os.symlink("book.house", self.at("book.txt"))
        os.symlink("book.txt", self.at("far.txt"))
        os.link(book, self.at("hard.txt"))
        os.symlink(self.folder, self.at("around"))
        for name in ["book.txt", "far.txt", "hard.txt", "around/book.house"]:
            with self.subTest(name):
                self.refuses(self.at(name), "make", self.at(name), book)
                self.refuses(book, "make", book, self.at(name))
        self.refuses(self.at("book.txt"), "make", self.at("book.txt"))

    def test_nor_by_a_read(self):
        file = made("goal T")
        book = self.put("book.house", file)
        told = "%s: this is the file to write, too; name another one\n" % book
        self.assertEqual(ran("read", book, book), (1, b"", told))
        with open(book, "ab") as out:
            self.assertEqual(ran("read", book, stdout=out), (1, None, told))
        self.assertEqual(self.held("book.house"), file)

    def test_a_failure_leaves_the_old_file_whole(self):
        book = self.put("book.txt", b"goal T\n")
        self.put("book.house", b"old")
        short = lambda: resource.setrlimit(resource.RLIMIT_FSIZE, (4, 4))
        told = "%s: File too large\n" % self.at("book.house")
        self.assertEqual(ran("make", book, preexec_fn=short), (1, b"", told))
        self.assertEqual(self.held("book.house"), b"old")
        self.assertEqual(sorted(os.listdir(self.folder)), ["book.house", "book.txt"])

    def test_modes_and_links_stay(self):
        book = self.put("book.txt", b"goal T\n")
        os.chmod(self.put("kept.house", b"old"), 0o640)
        os.symlink("kept.house", self.at("book.house"))
        self.assertEqual(ran("make", book), (0, b"", ""))
        self.assertTrue(os.path.islink(self.at("book.house")))
        self.assertEqual((self.held("kept.house"), stat.S_IMODE(os.stat(self.at("kept.house")).st_mode)), (made("goal T"), 0o640))
        self.assertEqual(ran("make", book, self.at("new.house"), preexec_fn=lambda: os.umask(0o027)), (0, b"", ""))
        self.assertEqual(stat.S_IMODE(os.stat(self.at("new.house")).st_mode), 0o640)

    def test_a_pipe_is_written_to_and_not_replaced(self):
        book, pipe = self.put("book.txt", b"goal T\n"), self.at("pipe")
        os.mkfifo(pipe)
        end = os.open(pipe, os.O_RDONLY | os.O_NONBLOCK)
        self.addCleanup(os.close, end)
        self.assertEqual(ran("make", book, pipe), (0, b"", ""))
        self.assertEqual(os.read(end, 100), made("goal T"))
        self.assertTrue(stat.S_ISFIFO(os.stat(pipe).st_mode))

    def test_a_folder_is_no_target(self):
        book = self.put("book.txt", b"goal T\n")
        self.assertEqual(ran("make", book, self.folder), (1, b"", "%s: Is a directory\n" % self.folder))


class Streams(unittest.TestCase):
    """Standard streams that are closed or full: one line, exit status 1."""

    WORDS = [["make", "-"], ["read", os.path.join(EXAMPLES, "whole.house")], ["--help"]]

    def says(self, words, told, redirected="", **how):
        command = ["sh", "-c", 'exec "$@" ' + redirected, "sh", *HOUSE, *words]
        run = subprocess.run(command, input=b"goal T\n", stderr=subprocess.PIPE, **how)
        self.assertEqual((run.returncode, run.stderr.decode()), (1, told), words)

    def test_a_full_disk(self):
        for words in self.WORDS:
            self.says(words, "standard output: No space left on device\n", ">/dev/full")

    def test_a_closed_output(self):
        for words in self.WORDS:
            self.says(words, "standard output: Bad file descriptor\n", ">&-")

    def test_a_pipe_that_nobody_reads(self):
        for words in self.WORDS:
            end, pipe = os.pipe()
            os.close(end)
            with open(pipe, "wb") as out:
                self.says(words, "standard output: Broken pipe\n", stdout=out)

    def test_a_closed_input(self):
        self.says(["make", "-"], "standard input: Bad file descriptor\n", "<&-")

    def test_nothing_is_said_where_nobody_listens(self):
        run = subprocess.run(["sh", "-c", 'exec "$@" 2>&-', "sh", *HOUSE, "read", "no such file"], capture_output=True)
        self.assertEqual((run.returncode, run.stdout), (1, b""))


class Examples(unittest.TestCase):
    def test_each_is_made_from_its_list_and_back(self):
        lists = [name for name in sorted(os.listdir(EXAMPLES)) if name.endswith(".txt")]
        self.assertGreater(len(lists), 20)
        for name in lists:
            with self.subTest(name):
                with open(os.path.join(EXAMPLES, name)) as source, open(os.path.join(EXAMPLES, name[:-4] + ".house"), "rb") as kept:
                    file = kept.read()
                    self.assertEqual(made(source.read()), file)
                try:
                    self.assertEqual(made(listed(file)), file)
                except Fault as fault:
                    self.assertIn("the file ends within", str(fault))

    def test_the_page_shows_each_with_its_output(self):
        with open(os.path.join(EXAMPLES, "README.md")) as source:
            page = source.read()
        outputs = [name for name in sorted(os.listdir(EXAMPLES)) if name.endswith(".out")]
        self.assertGreater(len(outputs), 20)
        for name in outputs:
            with open(os.path.join(EXAMPLES, name)) as kept:
                _, found, shown = page.partition("`%s`" % name[:-4])
                self.assertTrue(found, name)
                self.assertIn(kept.read().rstrip("\n"), shown.partition("\n#")[0].partition("\n| `")[0], name)


if __name__ == "__main__":
    unittest.main()
