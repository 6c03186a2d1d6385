#!/usr/bin/env python3
"""The tests of quay: python3 tools/test_quay.py. The program must be linked; './quay examples/true.house' links it."""
import os
import re
import shutil
import subprocess
import sys
import tempfile
import unittest

sys.dont_write_bytecode = True
sys.path.insert(0, os.path.dirname(os.path.abspath(__file__)))
from house import made


def held(path):
    with open(path) as source:
        return source.read()


ROOT = os.path.dirname(os.path.dirname(os.path.abspath(__file__)))
QUAY = os.path.join(ROOT, "quay")
PROGRAM = os.path.join(ROOT, "crates", "quaysaffron", "out", "quaysaffron")
EXAMPLES = os.path.join(ROOT, "examples")
WHOLE = os.path.join(EXAMPLES, "whole.house")
TOOLS = "cat cmp cp dd dirname find mkdir mv readlink rm sed sh tr uname wc".split()
SWAP = b"# a remark\n\nassume x : (| p0 p1)\ngoal (| p1 p0)\n"
VERSION = re.search("^version=(.+)$", held(QUAY), re.M)[1]
NOT_WRITTEN = "quay: standard output: the answer could not be written\n"
NOT_READY = "quay: the program is missing or older than its sources, and the Rattle kit's command rt, which makes it, is not on the path\n"


def ran(*words, quay=QUAY, **how):
    """The exit status of a run, what it printed and what it said."""
    run = subprocess.run([quay, *words], **{"stdout": subprocess.PIPE, "stderr": subprocess.PIPE, **how})
    return run.returncode, None if run.stdout is None else run.stdout.decode(), run.stderr.decode()


def redirected(how, *words, quay=QUAY):
    """The same, with standard streams as the shell redirects them."""
    run = subprocess.run(["sh", "-c", 'exec "$@" ' + how, "sh", quay, *words], capture_output=True, input=b"")
    return run.returncode, run.stdout.decode(), run.stderr.decode()


def refusal_names():
    """The name of each number, from the table of the reference."""
    section = held(os.path.join(ROOT, "docs", "REFERENCE.md")).partition("## 3. Numbers that come back")[2].partition("\n#")[0]
    names = {}
    for first, row in re.findall(r"^\| ([0-9]+)(?: to [0-9]+)? \| ([A-Za-z, ]+) \|", section, re.M):
        names.update(enumerate(row.split(", "), int(first)))
    return names


class InFolder(unittest.TestCase):
    def setUp(self):
        folder = tempfile.TemporaryDirectory()
        self.addCleanup(folder.cleanup)
        self.folder = folder.name
        os.chmod(self.folder, 0o755)

    def put(self, name, data, mode=0o644):
        path = os.path.join(self.folder, name)
        os.makedirs(os.path.dirname(path), exist_ok=True)
        with open(path, "wb") as out:
            out.write(data)
        os.chmod(path, mode)
        return path


class Answers(InFolder):
    """The linked program, on the examples and on files of every name."""

    def test_answers_are_printed_and_nothing_is_said(self):
        for name in ["whole", "tips", "excluded-middle", "steps-1000000"]:
            kept = os.path.join(EXAMPLES, name)
            self.assertEqual(ran(kept + ".house"), (0, held(kept + ".out"), ""), name)

    def test_a_refusal_is_one_line_and_told_in_words(self):
        names, files = refusal_names(), sorted(name for name in os.listdir(EXAMPLES) if re.fullmatch("refused-.*[.]house", name))
        self.assertEqual(len(files), 21)
        for name in files:
            path, number = os.path.join(EXAMPLES, name), int(name.split("-")[1].split(".")[0])
            status, printed, said = ran(path)
            self.assertEqual((status, printed), (0, "refused %d\n" % number), name)
            self.assertTrue(said.startswith("quay: %s: %d %s: " % (path, number, names[number])), said)
            self.assertEqual(said.count("\n"), 1, said)

    def test_standard_input(self):
        for words in [[], ["-"], ["--"], ["--", "-"]]:
            with open(WHOLE, "rb") as given:
                self.assertEqual(ran(*words, stdin=given), (0, held(WHOLE[:-6] + ".out"), ""), words)
        told = "quay: standard input: 14 BadFile: the bytes are no house file\n"
        self.assertEqual(ran("-", input=b""), (0, "refused 14\n", told))

    def test_names_of_files(self):
        names = ["a b", "-x", "--help", "-", "it's \"so\"", "* ?", "$(touch x)`", "a\nb", "\\n%s", "ä", os.fsdecode(b"\xff")]
        with open(WHOLE, "rb") as source:
            whole = source.read()
        for name in names:
            self.put(name, whole)
            self.assertEqual(ran("./" + name, cwd=self.folder), (0, held(WHOLE[:-6] + ".out"), ""), name)
        for name in ["-x", "--help", "a b"]:
            self.assertEqual(ran("--", name, cwd=self.folder)[::2], (0, ""), name)
        self.assertEqual(sorted(os.listdir(self.folder)), sorted(names))

    def test_a_list_is_known(self):
        told = "quay: %s: 14 BadFile: is this a list? tools/house.py make makes a house file of it\n"
        for text in [SWAP, b"goal T", b"  unchecked\ngoal T", b"\tlet a = T\r\n", "# ä\n".encode()]:
            path = self.put("swap.txt", text)
            self.assertEqual(ran(path), (0, "refused 14\n", told % path), text)
        told = "quay: %s: 14 BadFile: the bytes are no house file\n"
        for data in [b"", b"\n", b"#\0", b"goalkeeper", b"goal\0", b"\1\0", b"refused 14\n"]:
            path = self.put("other", data)
            self.assertEqual(ran(path), (0, "refused 14\n", told % path), data)

    def test_one_line_for_a_name_of_two(self):
        path = self.put("a\nb", b"")
        self.assertEqual(ran(path)[2], "quay: %s: 14 BadFile: the bytes are no house file\n" % path.replace("\n", "?"))

    def test_through_a_link(self):
        link = os.path.join(self.folder, "linked")
        os.symlink(QUAY, link)
        self.assertEqual(ran(WHOLE, quay=link), (0, held(WHOLE[:-6] + ".out"), ""))


class Pages(unittest.TestCase):
    """What the pages say that the program prints."""

    AUDITORS = held(os.path.join(ROOT, "docs", "AUDITORS.md"))

    def printed(self, text):
        return ran("-", input=made(text))[1]

    def test_each_kind_of_node(self):
        rows = re.findall("^[|] .* [|] `(.*goal .*)` [|] `(.*)` [|]$", self.AUDITORS, re.M)
        self.assertEqual(len(rows), 12)
        for text, term in rows:
            self.assertEqual(self.printed(text.replace("\\|", "|").replace("; ", "\n")).splitlines()[-1], term)

    def test_each_list_with_its_output(self):
        for page, count in [(self.AUDITORS, 2), (held(os.path.join(ROOT, "README.md")), 1)]:
            blocks = re.findall("^```\n(.*?)^```", page, re.M | re.S)
            pairs = [pair for pair in zip(blocks, blocks[1:]) if "goal " in pair[0]]
            self.assertEqual(len(pairs), count)
            for text, output in pairs:
                self.assertEqual(self.printed(text), output)

    def test_the_tip_rule_and_its_other_goals(self):
        tips, blocks = held(os.path.join(EXAMPLES, "tips.txt")), re.findall("^```\n(.*?)^```", self.AUDITORS, re.M | re.S)
        self.assertEqual([blocks[1], blocks[3]], [held(os.path.join(EXAMPLES, name)) for name in ["tips.out", "tips-ana.out"]])
        self.assertEqual(blocks[2].split(), blocks[1].splitlines()[-1].split())
        for goal, steps in [("(> p4 F)", 17), ("F", 15)]:
            self.assertEqual(self.printed(re.sub("goal .*", "goal " + goal, tips)), "unprovable\nsteps %d\n" % steps)


class Streams(unittest.TestCase):
    def test_an_output_that_takes_nothing(self):
        for words in [[WHOLE], ["--help"], ["--version"], [os.path.join(EXAMPLES, "refused-05.house")]]:
            self.assertEqual(redirected(">/dev/full", *words), (1, "", NOT_WRITTEN), words)
            self.assertEqual(redirected(">&-", *words), (1, "", NOT_WRITTEN), words)
            end, pipe = os.pipe()
            os.close(end)
            with open(pipe, "wb") as out:
                self.assertEqual(ran(*words, stdout=out), (1, None, NOT_WRITTEN), words)

    def test_an_input_that_gives_nothing(self):
        self.assertEqual(redirected("<&-"), (1, "", "quay: standard input: it is closed\n"))
        self.assertEqual(redirected("<&-", "-"), (1, "", "quay: standard input: it is closed\n"))
        self.assertEqual(redirected("</", "-"), (1, "", "quay: standard input: it is a directory\n"))

    def test_streams_that_are_not_needed(self):
        printed = held(WHOLE[:-6] + ".out")
        self.assertEqual(redirected("<&-", WHOLE), (0, printed, ""))
        self.assertEqual(redirected("2>&-", WHOLE), (0, printed, ""))
        self.assertEqual(redirected("<&- 2>&-", WHOLE), (0, printed, ""))
        self.assertEqual(redirected("2>&-", os.path.join(EXAMPLES, "refused-05.house")), (0, "refused 5\n", ""))
        self.assertEqual(redirected("2>/dev/full", os.path.join(EXAMPLES, "refused-05.house")), (0, "refused 5\n", ""))


class Apart(InFolder):
    """A repository and a kit of our own, in which the program and rt are scripts that tell how they were called."""

    def setUp(self):
        super().setUp()
        self.quay = os.path.join(self.folder, "repo", "quay")
        self.put("repo/crates.txt", b"")
        self.put("repo/crates/a/src/lib.rt", b"")
        self.put("repo/crates/a/out/made", b"")
        self.put("repo/crates/quaysaffron/src/main.rt", b"")
        self.file = self.put("file", b"")
        shutil.copy(QUAY, self.quay)
        for tool in TOOLS:
            os.makedirs(os.path.join(self.folder, "tools"), exist_ok=True)
            os.symlink(shutil.which(tool), os.path.join(self.folder, "tools", tool))

    def program(self, text):
        """The program, newer than its sources, where rt leaves it."""
        self.put("repo/crates/quaysaffron/out/quaysaffron", b"#!/bin/sh\n" + text, 0o755)
        self.age("crates", -100)

    def age(self, name, seconds):
        """Sets the time of a folder and of all below but what rt makes, with that of the list of crates, by the program's."""
        time = os.stat(os.path.join(self.folder, "repo/crates/quaysaffron/out/quaysaffron")).st_mtime + seconds
        for below, folders, files in os.walk(os.path.join(self.folder, "repo", name)):
            folders[:] = [folder for folder in folders if folder != "out"]
            for path in [below, *(os.path.join(below, file) for file in files)]:
                os.utime(path, (time, time))
        if name == "crates":
            os.utime(os.path.join(self.folder, "repo", "crates.txt"), (time, time))

    def kit(self, text):
        """A kit whose rt does what the text says."""
        self.put("kit/bin/rt", b"#!/bin/sh\n" + text, 0o755)
        self.put("kit/KIT-ID", b"kit-0 logic 0\n")

    def run_here(self, *words, **how):
        path = os.pathsep.join(os.path.join(self.folder, name) for name in ["tools", "kit/bin"])
        return ran(*words, quay=self.quay, env={"PATH": path}, **how)

    def test_each_refusal_has_its_name(self):
        for number, name in refusal_names().items():
            self.program(b"echo refused %d\n" % number)
            status, printed, said = self.run_here(self.file)
            self.assertEqual((status, printed), (0, "refused %d\n" % number))
            self.assertTrue(said.startswith("quay: %s: %d %s: " % (self.file, number, name)), said)
        self.assertEqual(sorted(refusal_names()), list(range(1, 15)))

    def test_what_the_program_says_is_ours(self):
        for end in [b"", b"exit 1\n"]:
            self.program(b'echo "$1: Input/output error" >&2\n' + end)
            self.assertEqual(self.run_here(self.file), (1, "", "quay: %s: Input/output error\n" % self.file))
        self.program(b"echo no loader >&2\nexit 127\n")
        self.assertEqual(self.run_here(self.file), (2, "", "quay: no loader\nquay: the program ended with status 127\n"))

    def test_without_the_kit(self):
        self.program(b"echo unprovable\n")
        self.assertEqual(self.run_here(self.file), (0, "unprovable\n", ""))
        self.age("crates/a/out", 100)
        self.assertEqual(self.run_here(self.file), (0, "unprovable\n", ""))
        self.age("crates/a/src", 100)
        self.assertEqual(self.run_here(self.file), (2, "", NOT_READY))
        self.age("crates", -100)
        self.assertEqual(self.run_here(self.file), (0, "unprovable\n", ""))
        shutil.rmtree(os.path.join(self.folder, "repo/crates/quaysaffron/out"))
        self.assertEqual(self.run_here(self.file), (2, "", NOT_READY))

    def test_the_kit_makes_what_is_missing_once(self):
        self.kit(b'echo refused 14; (echo more; echo "rt: $* in ${PWD##*/crates/}"; echo "rt: running out/quaysaffron; ..") >&2; mkdir -p out\n'
                 b'printf "#!/bin/sh\\necho unprovable\\n" >out/quaysaffron; chmod 755 out/quaysaffron\n')
        os.symlink(shutil.which("chmod"), os.path.join(self.folder, "tools", "chmod"))
        begun = "quay: proving and linking the program; the first time takes minutes\n"
        self.assertEqual(self.run_here(self.file), (0, "unprovable\n", begun + "quay: run in quaysaffron\n"))
        self.assertEqual(self.run_here(self.file), (0, "unprovable\n", ""))
        self.assertEqual(self.run_here("--version"), (0, "quaysaffron %s, proved with kit-0 logic 0\n" % VERSION, ""))
        self.put("kit/KIT-ID", b"kit-1 logic 1\n")
        self.assertEqual(self.run_here(self.file), (0, "unprovable\n", begun + "quay: run in quaysaffron\n"))
        self.assertEqual(self.run_here("--version"), (0, "quaysaffron %s, proved with kit-1 logic 1\n" % VERSION, ""))

    def test_a_check_that_fails(self):
        self.program(b"echo unprovable\n")
        self.kit(b"echo rt: a NOT PROVED >&2\nexit 1\n")
        begun = "quay: proving and linking the program; the first time takes minutes\nquay: a NOT PROVED\n"
        told = begun + "quay: the program is not proved; 'rt run' in crates/quaysaffron says why\n"
        self.assertEqual(self.run_here(self.file), (2, "", told))

    def test_another_machine(self):
        self.program(b"echo unprovable\n")
        os.remove(os.path.join(self.folder, "tools", "uname"))
        self.put("tools/uname", b"#!/bin/sh\necho aarch64\n", 0o755)
        self.assertEqual(self.run_here(self.file), (2, "", "quay: the program and the Rattle kit, which makes it, are for x86-64 Linux\n"))

    def test_arguments_and_file_are_looked_at_first(self):
        self.kit(b"echo rt: called\nexit 1\n")
        option = "quay: -x is no option; quay --help tells the usage\n"
        self.assertEqual(self.run_here("-x"), (2, "", option))
        self.assertEqual(self.run_here("a", "b"), (2, "", "quay: there is one FILE at most; quay --help tells the usage\n"))
        self.assertEqual(self.run_here("none"), (1, "", "quay: none: there is no such file\n"))
        self.assertEqual(self.run_here(""), (1, "", "quay: : there is no such file\n"))
        self.assertEqual(self.run_here(self.folder), (1, "", "quay: %s: it is a directory\n" % self.folder))
        self.assertEqual(self.run_here("--version"), (0, "quaysaffron %s\n" % VERSION, ""))
        status, printed, said = self.run_here("--help")
        self.assertEqual((status, printed.splitlines()[0], said), (0, "usage: quay [FILE]", ""))
        self.assertFalse(os.path.exists(os.path.join(self.folder, "repo", "target")))

    def test_a_file_that_may_not_be_read(self):
        path = self.put("shut", b"", 0)
        nobody = {"user": 65534, "group": 65534, "extra_groups": []} if os.geteuid() == 0 else {}
        self.assertEqual(self.run_here(path, **nobody), (1, "", "quay: %s: it may not be read\n" % path))


if __name__ == "__main__":
    if not os.access(PROGRAM, os.X_OK):
        sys.exit("test_quay.py: the program is not linked; './quay examples/true.house' links it")
    # a first run tells that it looks whether all is proved, which the tests do not expect
    ran(WHOLE)
    unittest.main()
