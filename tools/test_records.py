#!/usr/bin/env python3
"""The tests of records.py, which is for an older kit: python3 tools/test_records.py (half a minute; the last one needs rattle-kit-5b)"""
import pathlib
import shutil
import sys
import unittest

sys.dont_write_bytecode = True
sys.path.insert(0, str(pathlib.Path(__file__).resolve().parent))
import records

CODE = """pub struct Record {
    pub formula: u16,
    pub term: u16,
}

pub fn read(work: &[Record], at: usize) -> Record
    ensures { λ r. ⌜ r ≡ getD (now (work .entry)) at none ⌝ }
{
    work[at]
}

pub fn write(work: &mut [Record], at: usize, formula: u16, term: u16)
{
    work[at] = Record { formula, term };
}

pub fn filled(y: u16) -> [Record; 7]
    ensures { λ r. ⌜ r ≡ replicate 7 (recordOf y y) ⌝ }
{
    [Record { formula: y, term: y }; 7]
}
"""

EDIT = """Why it must fail,
in two lines.
file: src/lib.rt
old:     a
new:     b
old: gone
new:
What the next pair is for.
file: proofs/go/Proof.antt
old: c
new: d
file: proofs/Generated/go/Lts.antt
old: e  -- told apart: 1.
new: f
file: proofs/go/Proof/Tie.antt
old: g
new: h
"""


def applied(text, pairs):
    """A file after its pairs, each of which must occur once in it."""
    for old, new in pairs:
        assert text.count(old) == 1, old
        text = text.replace(old, new)
    return text


class Sources(unittest.TestCase):
    def test_functions_have_their_parameters(self):
        found = [(name, params) for name, params, _ in records.functions(CODE)]
        self.assertEqual(found[0], ("read", "work: &[Record], at: usize"))
        self.assertEqual([name for name, _ in found], ["read", "write", "filled"])

    def test_thin_functions_go_by_their_own_parameters(self):
        self.assertEqual(records.thin_of(CODE), {
            "read": "Record { formula: work[at][0], term: work[at][1] }", "write": "work[at] = [formula, term];"})

    def test_thin_functions_stand_beside_the_record(self):
        self.assertEqual(records.thin_of(CODE.replace("struct Record", "struct Other")), {})

    def test_arrays_of_records_are_found_by_their_type(self):
        self.assertEqual(records.filled_of(CODE), {"filled": "[[y; 2]; 7]"})

    def test_the_record_has_one_home(self):
        self.assertEqual(len({crate for crate, _ in records.stand_ins()[0]}), 1)


class Text(unittest.TestCase):
    def test_remarks_go_indented_or_not(self):
        text = "-- antt refused `a`: why\n-- kept\n  -- antt refused `close` as it was built\n  pub close : A\n"
        self.assertEqual(records.unremarked(text), "-- kept\n  pub close : A\n")

    def test_items_join_continued_lines(self):
        text = "use A.B\n-- a comment\nabbrev a : B\na = f (b\n  c)\n    d\n\nmodule _ where\n  e = g\n"
        self.assertEqual(records.items(text), [
            [0, "abbrev a : B"], [0, "a = f (b c) d"], None, [0, "module _ where"], [2, "e = g"], None])

    def test_lists_are_tidied(self):
        tokens = records.TOKEN.findall("a = List._∷_ x (List._∷_ y List.[])")
        self.assertEqual(records.shown(records.tidied(records.parsed(tokens)[0])), "a = x ∷ y ∷ []")

    def test_wrapped_lines_fit_and_lose_nothing(self):
        terms = ["name", "="] + ["word%d" % i for i in range(60)]
        lines = records.wrapped(2, terms).split("\n")
        self.assertGreater(len(lines), 1)
        self.assertLessEqual(max(map(len, lines)), records.WIDTH)
        self.assertEqual([len(line) - len(line.lstrip()) for line in lines], [2] + [6] * (len(lines) - 1))
        self.assertEqual(" ".join(lines).split(), terms)

    def test_a_type_that_occurs_twice_is_named_once(self):
        text = records.shortened("a = f (Syntax.tyArray Syntax.aaaaaaaa 2)\n\nb = g (Syntax.tyArray Syntax.aaaaaaaa 2)\n")
        self.assertEqual(text.count("Syntax.tyArray"), 1)
        self.assertIn("abbrev y0 : Syntax.Ty\n", text)
        self.assertIn("a = f y0\n", text)


class Pairs(unittest.TestCase):
    def both_ways(self, base, other):
        pairs, told = records.pairs_of(base, other)
        self.assertEqual(records.untold(told), base)
        self.assertEqual(applied(told, pairs).rstrip("\n"), other.rstrip("\n"))
        return pairs

    def test_a_line_that_occurs_once_is_a_pair_as_it_stands(self):
        self.assertEqual(self.both_ways("a\nb\nc\n", "a\nx\nc\n"), [("b", "x")])

    def test_a_line_that_occurs_twice_is_told_apart(self):
        self.assertEqual(self.both_ways("same\nb\nsame\nd\n", "same\nb\nnew\nd\n"), [("same  -- told apart: 1.", "new")])

    def test_more_lines_get_room(self):
        self.assertEqual(self.both_ways("aa\nbb\ncc\n", "aa\nbb\nx\ny\ncc\n"), [("-- told apart: 1.", "x"), ("-- told apart: 2.", "y")])


class Edits(unittest.TestCase):
    def test_the_authors_lines_stay(self):
        lines, _ = records.own_part(EDIT)
        self.assertEqual("\n".join(lines) + "\n", EDIT[:EDIT.index("file: proofs/Generated")])

    def test_the_authors_pairs_are_read_as_rt_reads_them(self):
        _, pairs = records.own_part(EDIT)
        self.assertEqual([(str(at), old, new) for at, old, new in pairs], [
            ("src/lib.rt", "    a", "    b"), ("src/lib.rt", "gone", ""), ("proofs/go/Proof.antt", "c", "d")])


@unittest.skipUnless(shutil.which("rt"), "no kit: `rt` is not on the path")
class Made(unittest.TestCase):
    def test_the_smallest_crate_is_made_as_it_stands(self):
        records.pinned(False)
        carrying = [crate for crate in map(records.Crate, records.listed()[0]) if crate.carriers and not crate.main]
        crate = min(carrying, key=lambda one: sum(path.stat().st_size for path in records.generated_files(one)))
        crates = [one for one in map(records.Crate, records.below([crate.name])) if one.functions]
        files = records.all_made(crates, crate.name, {crate.name: crate.together(crate.carriers)})
        made = {pathlib.PurePath(*path.parts[1:]): text for path, text in files.items()}
        stands = {path.relative_to(crate.dir / "proofs"): records.untold(path.read_text()) for path in records.generated_files(crate)}
        self.assertEqual(sorted(made), sorted(stands))
        differ = [str(path) for path in made if made[path] != stands[path]]
        self.assertEqual(differ, [], "%s: tools/records.py %s makes it again" % (crate.name, crate.name))


if __name__ == "__main__":
    unittest.main()
