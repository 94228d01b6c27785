"""Golvanzo for Python: circuits in the formats of AIGER 1.9, text ("aag") and binary ("aig").

    from golvanzo import Plan, Refused

    plan = Plan.read(open("toggle.aag", "rb").read())
    plan.convert().reduce()
    for state, inputs, outputs, following in plan.run(["11", "11", "x1"]):
        print(state, inputs, outputs, following)
    open("toggle.aig", "wb").write(plan.write("aig"))

What is read, refused, made and stepped is the library's answer and no other; this package hands over memory. Values
are the bytes "0", "1" and "x". Wherever vectors are taken, an object with the buffer protocol (bytes, bytearray,
memoryview, array, an array of NumPy's) is lent as it is; text and lists are joined first. A call that refuses raises
Refused. One plan is used by one thread at a time; different plans by any number at once.
"""

from __future__ import annotations

import ctypes
import weakref
from array import array
from mmap import mmap
from typing import Dict, Iterator, List, NamedTuple, Optional, Sequence, Tuple, Union, cast

from ._library import LISTS, NO_MEMORY, Bytes, End, Finding, PlanStruct, Symbol, lent, library, version

__all__ = ["Plan", "Refused", "Counts", "Needle", "Row", "Run", "Rows", "Witness", "version", "sentence"]
__version__ = version

# what has the buffer protocol; Python has no name for all of it before 3.12
Buffer = Union[bytes, bytearray, memoryview, "array[int]", mmap]
Vector = Union[str, Buffer]
Vectors = Union[Vector, Sequence[Vector]]


def sentence(number: int) -> str:
    """What a refusal of this number means; "" if there is no such refusal."""
    return (library.plan_sentence(number) or b"").decode("ascii")


class Refused(Exception):
    """A call that is refused: its number, the place, what is wrong and what to do (docs/REFUSALS.md has them all)."""

    def __init__(self, number: int, place: int) -> None:
        self.number = number
        self.place = place
        self.sentence = sentence(number)
        self.place_is = (library.plan_place(number) or b"").decode("ascii")
        self.advice = (library.plan_advice(number) or b"").decode("ascii")
        super().__init__(number, place)

    def __str__(self) -> str:
        return "refused %d at %d: %s" % (self.number, self.place, self.sentence)


class Counts(NamedTuple):
    """The counts of a plan: variables, inputs, latches, outputs, gates, bad states, constraints."""

    M: int
    I: int
    L: int
    O: int
    A: int
    B: int
    C: int


class Needle(NamedTuple):
    """A needle's report: the steps at 0, at 1, at x, and those that differ from the step before."""

    at_0: int
    at_1: int
    at_x: int
    changes: int


class Row(NamedTuple):
    """An output's rows at 0, at 1 and at x."""

    at_0: int
    at_1: int
    at_x: int


class Witness(NamedTuple):
    """The witness question's answer: True, False, or None if the allowance is used up; and the fillings tried."""

    says: Optional[bool]
    tried: int


class Run:
    """A run's steps: each is (state, inputs, outputs, next state), as text.

    `outputs` and `states` have the bytes of all steps. `states` begins with the state that the run starts from, so that
    it has one more than the run has steps.
    """

    def __init__(self, counts: Counts, number: int, inputs: memoryview, states: bytearray, outputs: bytearray) -> None:
        self.number = number
        self.inputs = inputs
        self.states = states
        self.outputs = outputs
        self._counts = counts

    def __len__(self) -> int:
        return self.number

    def __getitem__(self, step: int) -> Tuple[str, str, str, str]:
        if not 0 <= step < self.number:
            raise IndexError("there is no step %d" % step)
        n = self._counts
        return (
            _text(self.states, step, n.L),
            _text(self.inputs, step, n.I),
            _text(self.outputs, step, n.O),
            _text(self.states, step + 1, n.L),
        )

    def __iter__(self) -> Iterator[Tuple[str, str, str, str]]:
        return (self[step] for step in range(self.number))


class Rows:
    """Rows: `outputs` and `nexts` have the bytes of all; `rows[k]` is (outputs, next state) of row k, as text."""

    def __init__(self, counts: Counts, number: int, nexts: bytearray, outputs: bytearray) -> None:
        self.number = number
        self.nexts = nexts
        self.outputs = outputs
        self._counts = counts

    def __len__(self) -> int:
        return self.number

    def __getitem__(self, row: int) -> Tuple[str, str]:
        if not 0 <= row < self.number:
            raise IndexError("there is no row %d" % row)
        return _text(self.outputs, row, self._counts.O), _text(self.nexts, row, self._counts.L)


def _text(values: Union[bytearray, memoryview], place: int, width: int) -> str:
    return bytes(values[place * width : (place + 1) * width]).decode("latin-1")


def _view(vector: Vector) -> memoryview:
    return memoryview(vector.encode("latin-1", "replace") if isinstance(vector, str) else vector).cast("B")


class _Lengths:
    """The vectors of one call, held to the counts.

    The library judges the plan before the vectors. So a vector of the wrong length is lent as one of the right length
    that holds "?": what comes before 12 is refused first.
    """

    AFTER_VECTORS = (0, 11, 12, 17, 20, 23)

    def __init__(self) -> None:
        self.wrong: List[int] = []

    def vector(self, vector: Vector, width: int, place: int) -> bytes:
        """The bytes of one vector; place is that of 12."""
        whole = _view(vector)
        if len(whole) == width:
            return whole.tobytes()
        self.wrong.append(place)
        return b"?" * width

    def many(self, vectors: Vectors, width: int, number: Optional[int]) -> Tuple[int, memoryview]:
        """How many vectors there are, and their bytes one after another: the caller's own, where it gave them so."""
        if isinstance(vectors, (list, tuple)):
            return len(vectors), memoryview(b"".join([self.vector(vector, width, 2) for vector in vectors]))
        whole = _view(cast(Vector, vectors))
        if number is None and width == 0 and len(whole) == 0:
            raise ValueError("a plan without inputs: say the number of vectors, or give a list of them")
        steps = len(whole) // max(width, 1) if number is None else number
        if len(whole) == steps * width:
            return steps, whole
        self.wrong.append(2)
        return 1, memoryview(b"?" * width)

    def ended(self, end: End) -> None:
        """Raises what the call is refused for."""
        if end.number == NO_MEMORY:
            raise MemoryError(sentence(NO_MEMORY))
        if self.wrong and end.number in self.AFTER_VECTORS:
            raise Refused(12, min(self.wrong + ([end.place] if end.number == 12 else [])))
        if end.number != 0:
            raise Refused(end.number, end.place)


def _ended(end: End) -> None:
    _Lengths().ended(end)


class Plan:
    """A plan with its tables, in the library's memory. Plan.read and Plan.read_cards make one."""

    def __init__(self) -> None:
        self._struct = PlanStruct()
        self._at = ctypes.pointer(self._struct)
        weakref.finalize(self, library.plan_free, self._at)

    @classmethod
    def read(cls, file: Buffer) -> "Plan":
        """Reads a file of AIGER 1.9, of either form. The bytes are lent by the buffer protocol and not kept."""
        plan = cls()
        with lent(file) as (at, length):
            _ended(library.plan_read(plan._at, at, length))
        return plan

    @classmethod
    def read_cards(cls, file: Buffer) -> "Plan":
        """Reads plan cards. They have no names, and are in binary order."""
        plan = cls()
        with lent(file) as (at, length):
            _ended(library.plan_read_cards(plan._at, at, length))
        return plan

    def __repr__(self) -> str:
        return "<Plan %s>" % " ".join("%s=%d" % pair for pair in self.counts._asdict().items())

    @property
    def counts(self) -> Counts:
        """The counts M, I, L, O, A, B, C."""
        return Counts(*self._struct.counts)

    @property
    def binary(self) -> bool:
        """Whether the file that was read had the binary form."""
        return bool(self._struct.binary)

    @property
    def tail(self) -> bytes:
        """The symbols and comments."""
        return ctypes.string_at(self._struct.tail, self._struct.tail_length) if self._struct.tail else b""

    def _table(self, which: int, words: int) -> List[int]:
        if words == 0:
            return []
        return memoryview(ctypes.string_at(self._struct.table[which], 4 * words)).cast("I").tolist()

    @property
    def inputs(self) -> List[int]:
        """The literals of the inputs."""
        return self._table(0, self.counts.I)

    @property
    def latches(self) -> List[Tuple[int, int]]:
        """For each latch its literal and that of its next state."""
        words = self._table(1, 2 * self.counts.L)
        return list(zip(words[0::2], words[1::2]))

    @property
    def outputs(self) -> List[int]:
        """The literals of the outputs."""
        return self._table(2, self.counts.O)

    @property
    def gates(self) -> List[Tuple[int, int, int]]:
        """For each gate its left side and its two right sides."""
        words = self._table(3, 3 * self.counts.A)
        return list(zip(words[0::3], words[1::3], words[2::3]))

    @property
    def resets(self) -> List[int]:
        """For each latch 0, 1 or its own literal, which is x."""
        return self._table(4, self.counts.L)

    @property
    def bads(self) -> List[int]:
        """The literals of the bad states."""
        return self._table(5, self.counts.B)

    @property
    def constraints(self) -> List[int]:
        """The literals of the constraints."""
        return self._table(6, self.counts.C)

    @property
    def names(self) -> Dict[Tuple[str, int], str]:
        """The names: of ("input", 0), ("latch", 0), ("output", 0), ("bad", 0), ("constraint", 0) and so on."""
        names: Dict[Tuple[str, int], str] = {}
        at, symbol = ctypes.c_size_t(0), Symbol()
        while library.plan_next_symbol(self._at, ctypes.byref(at), ctypes.byref(symbol)):
            name = ctypes.string_at(symbol.name, symbol.length).decode("latin-1")
            names[LISTS[symbol.list], symbol.entry] = name
        return names

    def check(self) -> None:
        """Raises Refused unless the tables hold a circuit."""
        _ended(library.plan_check(self._at))

    def convert(self) -> "Plan":
        """Puts the plan in binary order, which most calls need; gives it back."""
        _ended(library.plan_convert(self._at))
        return self

    def reduce(self) -> "Plan":
        """Reduces the plan, which is in binary order; gives it back."""
        _ended(library.plan_reduce(self._at))
        return self

    def drop(self) -> "Plan":
        """Drops the gates that nothing asks for, of a plan in binary order; gives it back."""
        _ended(library.plan_drop(self._at))
        return self

    def write(self, form: str = "aig") -> bytes:
        """The plan as a file: "aig", "aag" or "cards"."""
        calls = {"aig": library.plan_write_binary, "aag": library.plan_write_text, "cards": library.plan_write_cards}
        if form not in calls:
            raise ValueError('a form is "aig", "aag" or "cards", not %r' % form)
        out = Bytes()
        _ended(calls[form](self._at, ctypes.byref(out)))
        try:
            return ctypes.string_at(out.at, out.length)
        finally:
            library.plan_free_bytes(ctypes.byref(out))

    @property
    def first(self) -> str:
        """The state that a run starts from: that of the resets."""
        state = bytearray(self.counts.L)
        with lent(state, True) as (at, _):
            library.plan_first(self._at, at)
        return state.decode("ascii")

    def step(self, state: Vector, inputs: Vector) -> Tuple[str, str]:
        """One step from a state: the outputs and the next state, as text."""
        n, held = self.counts, _Lengths()
        following, outputs = bytearray(held.vector(state, n.L, 1)), bytearray(n.O)
        with lent(following, True) as (to, _), lent(held.vector(inputs, n.I, 2)) as (ins, _):
            with lent(outputs, True) as (outs, _):
                held.ended(library.plan_step(self._at, to, ins, outs))
        return outputs.decode("ascii"), following.decode("ascii")

    def run(self, vectors: Vectors, state: Optional[Vector] = None, number: Optional[int] = None) -> Run:
        """Steps once for each vector, from a state or from the resets. `number` is needed if there are no inputs."""
        n, held = self.counts, _Lengths()
        begin = self.first.encode("ascii") if state is None else held.vector(state, n.L, 1)
        steps, whole = held.many(vectors, n.I, number)
        states, outputs = bytearray(n.L * (steps + 1)), bytearray(n.O * steps)
        states[: n.L] = begin
        with lent(whole) as (ins, _), lent(states, True) as (to, _), lent(outputs, True) as (outs, _):
            held.ended(library.plan_run(self._at, steps, ins, to, outs))
        return Run(n, steps, whole, states, outputs)

    def rows(self, vectors: Vectors, number: Optional[int] = None) -> Rows:
        """Steps each vector once from the resets, by itself."""
        n, held = self.counts, _Lengths()
        rows, whole = held.many(vectors, n.I, number)
        nexts, outputs = bytearray(n.L * rows), bytearray(n.O * rows)
        with lent(whole) as (ins, _), lent(nexts, True) as (to, _), lent(outputs, True) as (outs, _):
            held.ended(library.plan_rows(self._at, rows, ins, to, outs))
        return Rows(n, rows, nexts, outputs)

    def count_rows(self, vectors: Vectors, number: Optional[int] = None) -> List[Row]:
        """The same rows counted: for each output those at 0, at 1 and at x."""
        n, held = self.counts, _Lengths()
        rows, whole = held.many(vectors, n.I, number)
        report = (ctypes.c_uint64 * (3 * n.O))()
        with lent(whole) as (ins, _):
            held.ended(library.plan_report_rows(self._at, rows, ins, ctypes.addressof(report)))
        return [Row(*report[3 * k : 3 * k + 3]) for k in range(n.O)]

    def report(self, vectors: Vectors, number: Optional[int] = None) -> Tuple[List[Needle], List[Needle]]:
        """The needle report of a run from the resets: that of the outputs, and that of the latches."""
        n, held = self.counts, _Lengths()
        steps, whole = held.many(vectors, n.I, number)
        words = (ctypes.c_uint32 * (4 * (n.O + n.L)))()
        with lent(whole) as (ins, length):
            held.ended(library.plan_report(self._at, steps, ins, length, ctypes.addressof(words)))
        needles = [Needle(*words[4 * k : 4 * k + 4]) for k in range(n.O + n.L)]
        return needles[: n.O], needles[n.O :]

    def explain(self, state: Vector, inputs: Vector, output: int) -> Tuple[List[int], List[int]]:
        """Which latches and which inputs, by their positions, made an output 0 or 1 in the step from this state."""
        n, held = self.counts, _Lengths()
        marks = bytearray(n.L + n.I)
        with lent(held.vector(state, n.L, 1)) as (of, _), lent(held.vector(inputs, n.I, 2)) as (ins, _):
            with lent(marks, True) as (to, _):
                held.ended(library.plan_explain(self._at, of, ins, output, to))
        marked = [k for k, mark in enumerate(marks) if mark == ord("1")]
        return [k for k in marked if k < n.L], [k - n.L for k in marked if k >= n.L]

    def witness(self, vectors: Vectors, allowance: int = 1 << 20, number: Optional[int] = None) -> Witness:
        """Whether every filling of the x gives 1 on some output or bad state; see golvanzo_witness in golvanzo.h."""
        held, finding = _Lengths(), Finding()
        steps, whole = held.many(vectors, self.counts.I, number)
        with lent(whole) as (ins, length):
            held.ended(library.plan_witness(self._at, steps, ins, length, allowance, ctypes.byref(finding)))
        return Witness({0: False, 1: True}.get(finding.says), finding.tried)

    def witness3(self, vectors: Vectors, number: Optional[int] = None) -> bool:
        """The same in three values, with nothing filled: True holds for every filling, False says nothing of them."""
        held, yes = _Lengths(), ctypes.c_int()
        steps, whole = held.many(vectors, self.counts.I, number)
        with lent(whole) as (ins, length):
            held.ended(library.plan_witness3(self._at, steps, ins, length, ctypes.byref(yes)))
        return bool(yes.value)

    def values(self, state: Vector, inputs: Vector) -> str:
        """The values of all variables in a step, the constant's first."""
        n, held = self.counts, _Lengths()
        values = bytearray(n.M + 1)
        with lent(held.vector(state, n.L, 1)) as (of, _), lent(held.vector(inputs, n.I, 2)) as (ins, _):
            with lent(values, True) as (to, _):
                held.ended(library.plan_values(self._at, of, ins, to))
        return values.decode("ascii")

    def rewire(self, gate: int, rhs0: int, rhs1: int, values: Vector) -> str:
        """Gives a gate two right sides, and a step's values on the screen those of the edited plan, which it gives."""
        held = _Lengths()
        screen = bytearray(held.vector(values, self.counts.M + 1, 4))
        with lent(screen, True) as (to, _):
            held.ended(library.plan_rewire(self._at, gate, rhs0, rhs1, to))
        return screen.decode("ascii")
