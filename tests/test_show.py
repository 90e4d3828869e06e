"""Tests of tools/show.py: its words for shows that the listing program refuses, and for texts that it does not understand.

The program must be there already: `rt run` in crates/listing builds it."""
import contextlib
import io
import pathlib
import random
import re
import subprocess
import sys
import tempfile
import unittest

ROOT = pathlib.Path(__file__).resolve().parent.parent
sys.dont_write_bytecode = True
sys.path.insert(0, str(ROOT / "tools"))
import refusals  # noqa: E402
import show  # noqa: E402

# A script that is accepted: function 0 alone is defined.
ONE = "8:0 1:0\n3:7\n"

# What the listing prints, the texts of script and guideline, and the line that explains it.
REFUSED = [
    ("1 0", "# nothing", "", "show.scr: the file is empty"),
    ("1 0", "4:0 " * 1024 + "3:1", "", "show.scr: more than 1024 records"),
    ("2 1", "4:0\n1:1024", "", "show.txt:2: variable 1024, where 0 to 1023 may stand"),
    ("2 0", "4:65536 1:0", "", "show.txt:1: abstraction 65536, where 0 to 65535 may stand"),
    ("2 2", "5:0 3:1\n\n9:1 3:1 3:1", "", "show.txt:3: sum 1, where 0 must stand"),
    ("2 1", "3:1 11:0", "", "show.txt:1: kind 11 is unknown"),
    ("3 1", "3:1\n5:0 3:2 3:3", "", "show.txt:2: application cannot stand here, after the main term"),
    ("3 1", "8:0\n8:1 1:0\n3:1", "", "show.txt:2: definition 1 cannot stand here, inside a term"),
    ("3 3", "8:0 1:0 8:1", "", "show.scr: the script ends too early, inside definition 1"),
    ("3 2", "8:0 1:0", "", "show.scr: the script ends too early, with no main term"),
    ("3 3", "10:0 3:0 3:1", "", "show.scr: the script ends too early, inside the main term"),
    ("4 4", "8:0 1:0\n8:1 1:0\n8:3 1:0\n3:1", "", "show.txt:3: definition 3, where definition 2 is the next"),
    ("4 256", "".join(f"8:{f} 1:0\n" for f in range(129)) + "3:1", "", "show.txt:129: a 129th definition, where 128 are the most"),
    ("5 0", "1:0", "", "show.txt:1: variable 0, but no abstraction is around it"),
    ("5 4", "8:0 1:0\n5:0 4:0 1:2 3:1", "", "show.txt:2: variable 2, but 1 abstraction is around it"),
    ("5 3", "8:0 5:0 4:0\n1:2\n1:1\n3:1", "", "show.txt:2: variable 2, but 2 abstractions are around it, the definition counting as one"),
    ("6 9", "# one\n8:0 1:0\n8:1 1:0\n8:2 1:0\n\n5:0 4:0\n  5:0 2:3 3:7\n  5:0 2:0 3:3\n", "", "show.txt:7: function name 3 is not defined"),
    ("7 1", "8:0\n6:0 1:0\n7:0 1:0 1:0 3:1", "", "show.txt:2: callEvent 0 may stand only in a rewritten script"),
    ("7 0", "7:5 3:1 3:1", "", "show.txt:1: emit 5 may stand only in a rewritten script"),
    ("11 0", ONE, "fact p0(3:1, 3:1)\n" * 257, "show.gl: more than 256 records"),
    ("12 1", ONE, "fact p0(3:1, 3:1)\nfact p16(3:1, 3:1)", "guideline.txt:2: predicate 16, where 0 to 15 may stand"),
    ("12 0", ONE, "fact p0(3:1, 1:1)", "guideline.txt:1: value kind 1, where 2 to 4 may stand"),
    ("12 1", ONE, "log 0 where t0 < t5", "guideline.txt:1: index 5, where 0 to 4 may stand"),
    ("13 2", ONE, "rule p0(x, y) :- p1(x, y)\nfact p0(3:1, 3:1)", "guideline.txt:2: a fact cannot stand after a rule or a logged clause"),
    ("13 1", ONE, "log 0\nrule p0(x, y) :- p1(x, y)", "guideline.txt:2: a rule cannot stand after a logged clause"),
    ("13 1", ONE, "# a head\nrule p0(x, y) :-\n\nlog 0", "guideline.txt:2: a rule head with no atom"),
    ("13 1", ONE, "rule p0(x, y)", "guideline.txt:1: a rule head with no atom"),
    ("14 1", ONE, "fact p0(3:1, 3:1)\nrule p0(x, z) :- p1(x, y)", "guideline.txt:2: head variable 2 (z) is in no atom of the rule"),
    ("15 32", ONE, "\n".join(f"fact p0(3:{n}, 2:{n})" for n in range(33)), "guideline.txt:33: a 65th value in the facts, where 64 are the most"),
    ("15 5", ONE, "rule p0(x, x) :- " + ", ".join(["p0(x, x)"] * 5), "guideline.txt:1: a fifth atom, where 4 are the most"),
    ("15 6", ONE, "log 0\nlog 0 after 0, 0, 0, 0, 0", "guideline.txt:2: a fifth trigger, where 4 are the most"),
    ("15 8", ONE, "log 0\n" * 9, "guideline.txt:9: a ninth logged clause, where 8 are the most"),
    ("16 3", ONE, "log 0\nlog 0 after 0 where x0 != x3", "guideline.txt:2: a condition on trigger 3, but its clause has 1 trigger"),
    ("16 1", ONE, "log 0 where no 0 since t1", "guideline.txt:1: a condition on trigger 1, but its clause has no trigger"),
    ("17 1", ONE, "log 0 after 5", "guideline.txt:1: function 5 is not in the script"),
    ("17 2", ONE, "log 0 after 0 where no 1 since t1", "guideline.txt:1: function 1 is not in the script"),
]

# Bytes that no text gives, or that have none with them.
CONSTANT = bytes([3, 0, 0, 0, 1, 0, 0, 0])
STORED = [
    ("1 0", None, b"", "show.scr: there is no such file, which reads as empty"),
    ("1 0", CONSTANT[:7], b"", "show.scr: 7 bytes, which is no multiple of 8"),
    ("2 1", CONSTANT + bytes([3, 0, 9, 0, 1, 0, 0, 0]), b"", "show.scr: record 1: byte 2 is 9, where 0 must stand"),
    ("3 1", CONSTANT * 2, b"", "show.scr: record 1: constant 1 cannot stand here, after the main term"),
    ("11 0", CONSTANT, bytes(17), "show.gl: 17 bytes, which is no multiple of 16"),
    ("12 0", CONSTANT, bytes(16), "show.gl: record 0: kind 0 is unknown"),
    ("12 0", CONSTANT, bytes([4] + [0] * 14 + [1]), "show.gl: record 0: byte 15 is 1, where 0 must stand"),
    ("12 1", CONSTANT, bytes([4] + [0] * 15 + [8, 2] + [0] * 14), "show.gl: record 1: byte 1 is 2, where 0 to 1 may stand"),
    ("13 0", CONSTANT, bytes([3] + [0] * 15), "show.gl: record 0: an atom can stand only in a rule"),
    ("13 0", CONSTANT, bytes([5] + [0] * 15), "show.gl: record 0: a trigger can stand only after a logged head or another trigger"),
    ("13 0", CONSTANT, bytes([6] + [0] * 15), "show.gl: record 0: a condition can stand only in a logged clause"),
    ("13 1", CONSTANT, bytes([2] + [0] * 15), "show.gl: record 0: a rule head with no atom"),
]

# A text, its line that gives no record, and the piece of it that is told.
NOT_UNDERSTOOD = [
    ("show.txt", "8:0 1:0 # 2;1\n\n5:0 2;1 3:7\n", 3, "2;1"),
    ("show.txt", "3:1\r\n256:0", 2, "256:0"),
    ("show.txt", "3:4294967296", 1, "3:4294967296"),
    ("show.txt", "3:-1", 1, "3:-1"),
    ("show.txt", "3:" + "9" * 5000, 1, "3:" + "9" * 5000),
    ("guideline.txt", "log 0\nlogs 1", 2, "logs 1"),
    ("guideline.txt", "fact p256(3:1, 3:2)", 1, "p256(3:1, 3:2)"),
    ("guideline.txt", "fact p0(3:1, 256:2)", 1, "p0(3:1, 256:2)"),
    ("guideline.txt", "fact p0(3:1 2, 3:2)", 1, "p0(3:1 2, 3:2)"),
    ("guideline.txt", "rule p1(x, y) :- p0(x, y), p0(x, v)", 1, "p0(x, v)"),
    ("guideline.txt", "\n# arm\nlog 1 after 0, 4294967296", 3, "4294967296"),
    ("guideline.txt", "log 1 after 0,", 1, "log 1 after 0,"),
    ("guideline.txt", "log 1 after 0 where t1 < t0, t256 < t0", 1, "t256 < t0"),
    ("guideline.txt", "log 1 where x0 <> x1", 1, "x0 <> x1"),
]


def run(*arguments):
    """The tool's status, standard output and standard error."""
    out, err = io.StringIO(), io.StringIO()
    with contextlib.redirect_stdout(out), contextlib.redirect_stderr(err):
        status = show.main([str(argument) for argument in arguments])
    return status, out.getvalue(), err.getvalue()


def vector_bytes(text):
    pieces = (piece.partition("*") for piece in text.split("+") if piece != "-")
    return b"".join(bytes.fromhex(once) * int(times or 1) for once, _, times in pieces)


def check_vectors():
    """Name, number, place, script and guideline of the check's test vectors that are refused."""
    lines = (ROOT / "tests/vectors/check.txt").read_text().split("\n")
    for name, line in zip(lines[1::2], lines[2::2]):
        fields = dict(word.split("=") for word in line.split() if "=" in word)
        if fields["number"] != "0":
            yield name, int(fields["number"]), int(fields["place"]), vector_bytes(fields["script"]), vector_bytes(fields["guideline"])


class Show(unittest.TestCase):
    def setUp(self):
        folder = tempfile.TemporaryDirectory()
        self.addCleanup(folder.cleanup)
        self.folder = pathlib.Path(folder.name)

    def write(self, **files):
        for name, content in files.items():
            path = self.folder / name.replace("_", ".")
            path.write_bytes(content if isinstance(content, bytes) else content.encode())

    def explained(self, listed):
        """What the tool says where the listing program prints this."""
        program = subprocess.run([ROOT / "crates/listing/out/listing"], cwd=self.folder, capture_output=True, text=True, check=True)
        self.assertEqual(program.stdout, listed + "\n")
        status, out, err = run("explain", self.folder, *listed.split())
        self.assertEqual((status, err), (0, ""))
        return out

    def test_refused_text(self):
        for listed, script, guideline, line in REFUSED:
            with self.subTest(line):
                self.write(show_txt=script, guideline_txt=guideline)
                self.assertEqual(run("build", self.folder), (0, "", ""))
                self.assertEqual(self.explained(listed), line + "\n")

    def test_refused_bytes(self):
        for listed, script, guideline, line in STORED:
            with self.subTest(line):
                (self.folder / "show.scr").unlink(missing_ok=True)
                self.write(show_gl=guideline, **({} if script is None else {"show_scr": script}))
                self.assertEqual(self.explained(listed), line + "\n")

    def test_text_of_other_bytes(self):
        self.write(show_txt="3:1\n2:4", guideline_txt="")
        run("build", self.folder)
        at_record = "show.scr: record 1: function name 4 cannot stand here, after the main term\n"
        self.assertEqual(self.explained("3 1"), at_record.replace("show.scr: record 1", "show.txt:2"))
        for text in ("3:1\n2:5", "3:1\n2;4", "3:1"):
            self.write(show_txt=text)
            self.assertEqual(self.explained("3 1"), at_record)

    def test_other_numbers(self):
        for number, words in {0: "nothing is refused", 22: "the budget is above 1,000,000", 8: "unknown number"}.items():
            self.assertEqual(run("explain", self.folder, number, 0), (0, words + "\n", ""))
        # No such fault is there, and no such record.
        self.write(show_txt="8:0 1:0 2:0", guideline_txt="")
        run("build", self.folder)
        self.assertEqual(run("explain", self.folder, 6, 2)[1], "show.txt:1: a function name that is not defined\n")
        self.assertEqual(run("explain", self.folder, 6, 9)[1], "show.scr: a function name that is not defined\n")

    def test_every_vector_has_words_of_its_own(self):
        seen = {}
        for name, number, place, script, guideline in check_vectors():
            _, words = refusals.explain(number, place, script, guideline)
            self.assertNotIn(words, refusals.WORDS.values(), name)
            seen[number] = seen.get(number, 0) + 1
        self.assertEqual(sorted(seen), [1, 2, 3, 4, 5, 6, 7, 11, 12, 13, 14, 15, 16, 17])

    def test_no_bytes_are_too_bad(self):
        source = random.Random(1)
        for _ in range(400):
            script, guideline = (bytes(source.choice([0, 0, 0, 1, 2, 3, 4, 5, 6, 7, 8, 9, 10, 255]) for _ in range(64)) for _ in "sg")
            for number in refusals.WORDS:
                self.assertTrue(refusals.explain(number, source.randrange(12), script, guideline)[1])

    def test_not_understood(self):
        for name, text, line, piece in NOT_UNDERSTOOD:
            with self.subTest(piece[:80]):
                self.write(**{"show_txt": "3:1", "guideline_txt": "", "show_scr": CONSTANT, "show_gl": b"", name.replace(".", "_"): text})
                told = (1, "", f"{self.folder / name}:{line}: not understood: {piece}\n")
                self.assertEqual(run("build", self.folder), told)
                self.assertEqual(run("check", self.folder), told)

    def test_a_comment_takes_any_byte(self):
        self.write(show_txt=b"\xef\xbb\xbf3:1 # \xe9", guideline_txt="", show_scr=CONSTANT, show_gl=b"")
        self.assertEqual(run("check", self.folder), (0, "", ""))

    def test_help_and_usage(self):
        for arguments in (["--help"], ["-h"], ["build", "--help"]):
            self.assertEqual(run(*arguments), (0, show.__doc__.strip() + "\n", ""))
        for arguments in ([], ["build"], ["burn", "shows"], ["explain", "shows"], ["explain", "shows", "six", "0"], ["explain", "shows", "6", "-1"]):
            status, out, err = run(*arguments)
            self.assertEqual((status, out), (2, ""))
            self.assertTrue(err.startswith("usage:\n    show.py build DIR ... "))

    def test_general_words_are_those_of_the_formats(self):
        numbers = (ROOT / "docs/FORMATS.md").read_text().partition("## Numbers")[2]
        rows = re.findall(r"^\| (\d+) \| `LORGWIN_\w+` \| (.*?) \|", numbers, re.MULTILINE)
        self.assertEqual({int(number): words for number, words in rows}, refusals.WORDS)

    def test_as_a_program(self):
        program = subprocess.run([sys.executable, ROOT / "tools/show.py", "build", self.folder], capture_output=True, text=True)
        told = f"{self.folder / 'show.txt'}: No such file or directory\n"
        self.assertEqual((program.returncode, program.stdout, program.stderr), (1, "", told))


if __name__ == "__main__":
    unittest.main()
