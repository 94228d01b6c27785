"""Holds the Python package to the files written by hand, and to the command (its path is GOLVANZO_PLAN)."""

import array
import mmap
import os
import pathlib
import re
import subprocess
import threading
import time
import unittest

import golvanzo
from golvanzo import Needle, Plan, Refused, Row

PLAN = os.environ["GOLVANZO_PLAN"]
EXAMPLES = sorted(pathlib.Path("examples").glob("*.a?g"))
ACCEPTED = sorted(pathlib.Path("tests/accepted").glob("*.a?g"))
# those of 4 are lent tables too short, which never happens here
REFUSED = [path for path in sorted(pathlib.Path("tests").glob("refused-*/*.a?g")) if path.parent.name != "refused-04"]


def command(*words, given=b""):
    """What the command writes, and how it ends: its output, or the number and place that it is refused by."""
    done = subprocess.run([PLAN, *map(str, words)], input=given, capture_output=True, check=False)
    if done.returncode == 0:
        return done.stdout
    number, place = re.search(rb"refused (\d+) at (\d+)", done.stderr).groups()
    return int(number), int(place)


def answer(call, *arguments):
    """What a call gives, or the number and place that it is refused by."""
    try:
        return call(*arguments)
    except Refused as refused:
        return refused.number, refused.place


def lines(vectors):
    return "".join(vector + "\n" for vector in vectors).encode("ascii")


def first_line(said):
    """The first line of what the command says; below it may stand what it found. A refusal is left as it is."""
    return said.split(b"\n")[0] if isinstance(said, bytes) else said


def numbers(text):
    """The numbers of a table; "2 .. 10" are the even ones from 2 to 10, as the worked examples write literals."""
    words = re.sub(r"(\d+) \.\. (\d+)", lambda m: " ".join(map(str, range(int(m[1]), int(m[2]) + 1, 2))), text)
    return [int(word) for word in words.split()]


def vectors_of(path):
    for ending in (".vectors", ".inputs"):
        beside = path.with_suffix(ending)
        if beside.exists():
            return beside.read_text(encoding="ascii").split("\n")[:-1]
    return None


class Refusals(unittest.TestCase):
    def test_refused_files(self):
        self.assertGreater(len(REFUSED), 80)
        for path in REFUSED:
            expected = re.match(r"refused (\d+) at (\d+)", path.with_suffix(".expected").read_text(encoding="ascii"))
            with self.subTest(path=path), self.assertRaises(Refused) as caught:
                Plan.read(path.read_bytes())
            refused = caught.exception
            self.assertEqual((refused.number, refused.place), tuple(map(int, expected.groups())))
            self.assertEqual((refused.number, refused.place), command("check", path))
            self.assertEqual(refused.sentence, golvanzo.sentence(refused.number))
            self.assertEqual(str(refused), "%s: %s" % (expected.group(0), refused.sentence))
            self.assertTrue(refused.sentence and refused.place_is and refused.advice)

    def test_order_of_refusals(self):
        text = Plan.read(pathlib.Path("examples/half-adder.aag").read_bytes())
        self.assertEqual(answer(text.step, "", "11"), (15, 0))
        self.assertEqual(answer(text.run, ["1"]), (15, 0))
        self.assertEqual(answer(text.run, []), (15, 0))
        plan = Plan.read(pathlib.Path("examples/toggle.aig").read_bytes())
        self.assertEqual(answer(plan.step, "00", "1"), (12, 1))
        self.assertEqual(answer(plan.step, "2", "1"), (12, 1))
        self.assertEqual(answer(plan.step, "0", "1"), (12, 2))
        self.assertEqual(answer(plan.step, "0", "1\u20ac"), (12, 2))
        self.assertEqual(answer(plan.run, ["11", "1"]), (12, 2))
        self.assertEqual(answer(plan.run, ["11", "12"]), (12, 2))
        self.assertEqual(answer(plan.run, b"11111"), (12, 2))
        self.assertEqual(answer(plan.explain, "0", "11", 2), (17, 1))
        self.assertEqual(answer(plan.explain, "x", "1x", 0), (17, 2))
        self.assertEqual(answer(plan.rewire, 4, 2, 3, "0"), (22, 4))
        self.assertEqual(answer(plan.rewire, 1, 3, 2, "0"), (12, 4))
        self.assertEqual(answer(plan.report, b"11" * 65537), (13, 65536))
        self.assertEqual(answer(plan.witness, ["xx"] * 11), (20, 22))
        self.assertEqual(plan.write("aig"), pathlib.Path("examples/toggle.aig").read_bytes())

    def test_wrong_use(self):
        plan = Plan.read(b"aag 0 0 0 1 0\n1\n")
        self.assertRaises(ValueError, plan.write, "blif")
        self.assertRaises(ValueError, plan.run, b"")
        self.assertRaises(TypeError, Plan.read, "aag 0 0 0 0 0\n")
        self.assertRaises(TypeError, plan.step, 0, "")
        self.assertRaises(IndexError, plan.run([""]).__getitem__, 1)
        self.assertEqual(list(plan.run(["", ""])), [("", "", "1", "")] * 2)
        self.assertEqual(list(plan.run(b"", number=2)), [("", "", "1", "")] * 2)


class Files(unittest.TestCase):
    def test_tables(self):
        """The tables are those beside the worked examples."""
        self.assertGreater(len(ACCEPTED), 40)
        for path in ACCEPTED:
            said = dict(line.partition(" ")[::2] for line in path.with_suffix(".expected").read_text().splitlines())
            plan = Plan.read(path.read_bytes())
            with self.subTest(path=path):
                self.assertEqual(list(plan.counts), numbers(said["counts"]))
                self.assertEqual(plan.inputs, numbers(said["inputs"]))
                self.assertEqual([n for latch in plan.latches for n in latch], numbers(said["latches"]))
                self.assertEqual(plan.outputs, numbers(said["outputs"]))
                self.assertEqual([n for gate in plan.gates for n in gate], numbers(said["gates"]))
                self.assertEqual(plan.resets, numbers(said["resets"]))
                self.assertEqual(plan.bads, numbers(said["bads"]))
                self.assertEqual(plan.constraints, numbers(said["constraints"]))
                self.assertEqual(plan.tail, path.read_bytes()[int(said["tail"]) :])
                self.assertEqual(plan.binary, path.suffix == ".aig")
                plan.check()

    def test_written_by_hand(self):
        made = 0
        for path in ACCEPTED + EXAMPLES:
            converts, reduces = path.with_suffix(".converts"), path.with_suffix(".reduces")
            if path.parent.name == "examples":
                converts = path.with_suffix(".aig")
            with self.subTest(path=path):
                if converts.exists():
                    self.assertEqual(Plan.read(path.read_bytes()).convert().write("aig"), converts.read_bytes())
                    made += 1
                if reduces.exists():
                    self.assertEqual(Plan.read(path.read_bytes()).convert().reduce().write(), reduces.read_bytes())
                    made += 1
        self.assertGreaterEqual(made, 33)

    def test_like_the_command(self):
        for path in ACCEPTED + EXAMPLES:
            with self.subTest(path=path):
                plan = Plan.read(path.read_bytes())
                if plan.binary:
                    self.assertEqual(plan.write("aag"), command("convert", path))
                else:
                    self.assertEqual(plan.convert().write("aig"), command("convert", path))
                reduced = Plan.read(path.read_bytes()).convert().reduce()
                self.assertEqual(reduced.write("aig"), command("reduce", path))
                self.assertEqual(reduced.drop().write("aig"), command("drop", path))
                in_order = Plan.read(path.read_bytes())
                self.assertEqual(answer(in_order.write, "cards"), command("card", path))

    def test_cards(self):
        cards = pathlib.Path("tests/cards/toggle.cards").read_bytes()
        self.assertEqual(Plan.read_cards(cards).write("aig"), pathlib.Path("tests/cards/toggle.aig").read_bytes())
        self.assertEqual(Plan.read(pathlib.Path("tests/cards/toggle.aig").read_bytes()).write("cards"), cards)
        self.assertEqual(answer(Plan.read_cards, b"wrong"), (1, 5))
        self.assertEqual(answer(Plan.read_cards, cards[:22] + b"PO" + cards[24:]), (18, 22))

    def test_names(self):
        plan = Plan.read(pathlib.Path("examples/guard.aag").read_bytes())
        self.assertEqual(plan.names["output", 0], "needle")
        for path in EXAMPLES + ACCEPTED:
            said = command("check", path).decode("latin-1").splitlines()[1:]
            words = {"bad": "bad state"}
            names = Plan.read(path.read_bytes()).names.items()
            told = ["%s %d %s" % (words.get(of, of), at, name) for (of, at), name in names]
            self.assertEqual(sorted(told), sorted(said))

    def test_any_buffer(self):
        path = pathlib.Path("examples/guard.aag")
        whole = path.read_bytes()
        plan = Plan.read(whole).write("aag")
        for buffer in (bytearray(whole), memoryview(whole), array.array("B", whole), memoryview(b"!" + whole)[1:]):
            self.assertEqual(Plan.read(buffer).write("aag"), plan)
        with open(path, "rb") as file, mmap.mmap(file.fileno(), 0, access=mmap.ACCESS_READ) as mapped:
            self.assertEqual(Plan.read(mapped).write("aag"), plan)


class Steps(unittest.TestCase):
    def stepped(self):
        """Each plan with vectors beside it, in binary order."""
        found = 0
        for path in EXAMPLES + ACCEPTED:
            vectors = vectors_of(path)
            if vectors is not None:
                found += 1
                yield path, Plan.read(path.read_bytes()).convert(), vectors
        self.assertGreater(found, 20)

    def test_traces_written_by_hand(self):
        for path, plan, vectors in self.stepped():
            with self.subTest(path=path):
                written = lines(" ".join(step) for step in plan.run(vectors))
                self.assertEqual(written, path.with_suffix(".trace").read_bytes())
                state, steps = plan.first, list(plan.run(vectors))
                for before, inputs, outputs, following in steps:
                    self.assertEqual((before, plan.step(state, inputs)), (state, (outputs, following)))
                    state = following
                if steps:
                    later = plan.run(vectors[1:], state=steps[0][3])
                    self.assertEqual(list(later), steps[1:])

    def test_like_the_command(self):
        for path, plan, vectors in self.stepped():
            given = lines(vectors)
            with self.subTest(path=path):
                outputs, latches = plan.report(vectors)
                told = ["o%d %d %d %d %d" % (k, *needle) for k, needle in enumerate(outputs)]
                told += ["l%d %d %d %d %d" % (k, *needle) for k, needle in enumerate(latches)]
                self.assertEqual(lines(told), command("report", path, given=given))
                rows = plan.rows(vectors)
                told = ["%s %s %s %s" % (plan.first, vectors[k], *rows[k]) for k in range(len(rows))]
                self.assertEqual(lines(told), command("rows", path, given=given))
                told = ["o%d %d %d %d" % (k, *row) for k, row in enumerate(plan.count_rows(vectors))]
                self.assertEqual(lines(told), command("rows", "--count", path, given=given))
                says = answer(plan.witness, vectors)
                if len(says) == 2 and says[0] in (True, False):
                    word = "filling" if says[1] == 1 else "fillings"
                    says = ("%s, %d %s tried" % ("yes" if says[0] else "no", says[1], word)).encode()
                self.assertEqual(says, first_line(command("witness", path, given=given)))
                three = b"yes" if plan.witness3(vectors) else b"no"
                self.assertEqual(three, first_line(command("witness", "--three", path, given=given)))

    def test_explained_like_the_command(self):
        for path, plan, vectors in self.stepped():
            for k, (state, inputs, outputs, _) in enumerate(plan.run(vectors)):
                for output in range(len(outputs)):
                    said = command("explain", "--output", output, "--step", k, path, given=lines(vectors))
                    marks = answer(plan.explain, state, inputs, output)
                    if isinstance(said, bytes):
                        of, ins = marks
                        found = re.findall(r"\(?([li])(\d+)\)? is [01x]$", said.decode("latin-1"), re.M)
                        marks = [("l", str(n)) for n in of] + [("i", str(n)) for n in ins]
                        self.assertEqual(marks, [pair for pair in found if pair[0] in "li"])
                    else:
                        self.assertEqual(marks, said)

    def test_report_by_hand(self):
        """The toggle of the paper: its four lines, counted by hand from examples/toggle.trace."""
        plan = Plan.read(pathlib.Path("examples/toggle.aig").read_bytes())
        outputs, latches = plan.report(["11", "11", "x1", "10"])
        self.assertEqual(outputs, [Needle(2, 1, 1, 3), Needle(1, 2, 1, 3)])
        self.assertEqual(latches, [Needle(2, 1, 1, 3)])
        self.assertEqual(plan.count_rows(["11", "0x"]), [Row(2, 0, 0), Row(0, 2, 0)])

    def test_rewire(self):
        """As the command rewires, and the values are those of a step of the edited plan."""
        for gate, rhs0, rhs1 in ((0, 2, 6), (3, 12, 2), (1, 3, 2)):
            plan = Plan.read(pathlib.Path("examples/toggle.aig").read_bytes())
            values = plan.rewire(gate, rhs0, rhs1, plan.values("0", "11"))
            self.assertEqual(values, plan.values("0", "11"))
            self.assertEqual(plan.write("aig"), command("rewire", "examples/toggle.aig", gate, rhs0, rhs1))

    def test_many_vectors(self):
        """1,000,000 vectors, lent as they are, by a run in one call; every thousandth step is done by itself too."""
        plan = Plan.read(pathlib.Path("examples/guard.aig").read_bytes())
        vectors = bytearray(b"10010x0000" * 200_000)
        began = time.monotonic()
        run = plan.run(vectors)
        print("1,000,000 vectors of 6 gates: %.2f s" % (time.monotonic() - began))
        self.assertEqual(len(run), 1_000_000)
        self.assertIs(run.inputs.obj, vectors)
        for k in range(0, len(run), 1000):
            state, inputs, outputs, following = run[k]
            self.assertEqual(plan.step(state, inputs), (outputs, following))
        counted = plan.count_rows(vectors)
        self.assertEqual(sum(counted[0]), 1_000_000)
        vectors[1_999_999] = ord("y")
        self.assertEqual(answer(plan.run, vectors), (12, 2))

    def test_threads(self):
        """Each thread on a plan of its own."""
        whole, wrong = pathlib.Path("examples/selector.aig").read_bytes(), []
        vectors = vectors_of(pathlib.Path("examples/selector.aig")) * 200
        expected = list(Plan.read(whole).run(vectors))

        def work():
            if list(Plan.read(whole).run(vectors)) != expected:
                wrong.append(1)

        threads = [threading.Thread(target=work) for _ in range(8)]
        for thread in threads:
            thread.start()
        for thread in threads:
            thread.join()
        self.assertEqual(wrong, [])


class Package(unittest.TestCase):
    def test_version(self):
        self.assertEqual(golvanzo.version, pathlib.Path("VERSION").read_text(encoding="ascii").strip())
        self.assertEqual(golvanzo.__version__, golvanzo.version)

    def test_documented(self):
        """Every public name says what it does."""
        for name in golvanzo.__all__:
            self.assertTrue(name == "version" or getattr(golvanzo, name).__doc__, name)
        for name, member in vars(Plan).items():
            if not name.startswith("_"):
                self.assertTrue(member.__doc__, name)


if __name__ == "__main__":
    unittest.main()
