#!/usr/bin/env python3
"""Makes the files that the program `verdicts` judges, and what it must say of them.

    python3 tests/reference/cases.py            writes crates/verdicts/data and crates/verdicts/stdout
    python3 tests/reference/cases.py --check    says whether these are up to date
    python3 tests/reference/cases.py --show N   prints case N, as `verdicts` counts them

The verdicts are those of judge.py. Where a case below names its verdict, that was worked out by
hand, and judge.py has to agree. Nothing depends on the machine or the time.

data/bases.bin is a number of files, two bytes, and then each file: its length, two bytes, and its bytes.
data/cases.bin is a number of cases, two bytes, and then each case. All numbers are little-endian:

    2   the base: its number in bases.bin, from 0
    1   the verdict: 0 for accepted, or the number of the refusal
    2   the place
    only where the verdict is 0: 1 modules, 2 cells, 2 places, 1 depth
    1   the number of edits, and for each
        2   how many bytes of the base are copied
        2   how many bytes of the base are then dropped
        2   how many times the block is then put there
        2   the length of the block, and as many bytes
    what is left of the base after the last edit is copied
"""

import sys
from pathlib import Path

import judge
from boards import (
    AND, BUF, CELL, EMPTY, HIGH, INPUTS_OF, LOW, NOT, PICK, XOR,
    AT_A, AT_B, AT_I, AT_KIND, AT_LISTS, AT_N, AT_O, AT_PINS, AT_REFERENCE, AT_S, AT_W,
    Edit, append, apply_edits, board, cut_to, delete, exchange, insert, layout,
    module, put, put_two, record, record_end, sub, two_bytes, use,
)
from generator import Random, filler_module, random_board, random_mutation
from judge import CUT, DRIVE, KIND, LONG, ORDER, PINS, REFER, SHAPE, SIZE, STATE, TRAIL, WIRE

ACCEPTED = 0

# How many files there are of each verdict, from accepted to SIZE: a change of the cases is meant to be seen.
COUNTS = [1929, 61, 1127, 1243, 1794, 202, 701, 422, 954, 763, 846, 539, 28]

CRATE = Path(__file__).resolve().parents[2] / "crates" / "verdicts"


class Cases:
    """Gathers the cases, by family, each file once."""

    def __init__(self):
        self.family = ""
        self.cases = []
        self.seen = set()

    def add(self, base, edits=(), expect=None):
        """expect is (number, place), or a number alone where only that was worked out."""
        edits = [edits] if isinstance(edits, Edit) else list(edits)
        data = apply_edits(base, edits)
        verdict = judge.judge(data)
        number, place = verdict
        if expect not in (None, number, (number, place)):
            raise AssertionError(f"{self.family}: {data.hex(' ')} is {verdict}, and {expect} by hand")
        if data in self.seen:
            return
        self.seen.add(data)
        self.cases.append((self.family, base, edits, data, verdict))

    def accept(self, base, edits=()):
        self.add(base, edits, (ACCEPTED, 0))


# ---- Boards that many cases start from

TOGGLE = board(module(uses=[use(CELL, [1], [0]), use(NOT, [0], [1])], outputs=[0], state=[0]))

# A module that joins gates, one that feeds back through a cell, and a top with both kinds of state.
LAYERED = board(
    module(1, [use(sub(1), [0], [1]), use(CELL, [2], [2]), use(NOT, [1], [3])], [1, 2], [0, 1]),
    module(1, [use(CELL, [3], [1]), use(BUF, [0], [2]), use(sub(2), [1, 2], [3])], [3], [0]),
    module(2, [use(AND, [0, 1], [2]), use(NOT, [2], [3])], [3]),
)

# Every primitive once, in a module that the top uses twice.
PRIMITIVES = board(
    module(2, [use(sub(1), [0, 1], [2, 3]), use(sub(1), [3, 2], [4, 5])], [4, 5], [1, 0]),
    module(
        2,
        [use(reference, [0, 1, 2][:count], [2 + reference]) for reference, count in INPUTS_OF.items()],
        [12, 13],
        [CELL],
    ),
)


# ---- Records

def toggle_cases(cases):
    cases.accept(TOGGLE)
    first, second = layout(TOGGLE).occurrences[0]
    cases.add(TOGGLE, exchange(TOGGLE, first, second), (ORDER, 17))
    cases.add(TOGGLE, cut_to(TOGGLE, 36), (CUT, 27))
    cases.add(TOGGLE, append(TOGGLE, b"\0"), (TRAIL, 37))
    cases.add(b"", expect=(CUT, 0))
    values = [0, 1, 2, 3, 4, 5, 6, 7, 8, 10, 11, 12, 16, 17, 63, 64, 65, 127, 128, 129, 254, 255]
    for at, old in enumerate(TOGGLE):
        for value in sorted({*values, old ^ 1, old ^ 16, (old + 1) % 256, (old - 1) % 256} - {old}):
            cases.add(TOGGLE, put(at, value))
        cases.add(TOGGLE, delete(at))
        for value in (0, 1, 3, 255):
            cases.add(TOGGLE, insert(at, [value]))


def truncation_cases(cases):
    for base in (TOGGLE, LAYERED, PRIMITIVES, board(EMPTY, EMPTY), board(module(3, [], [0, 2, 1]))):
        cases.accept(base)
        starts = layout(base).all_records()
        for length in range(len(base)):
            cases.add(base, cut_to(base, length), (CUT, max(s for s in starts if s <= length)))


def appended_cases(cases):
    tails = [
        b"\0", b"\xff", b"\0\0\0\0", b"\0\0\3\0", record(1, [1, 0]), EMPTY, use(LOW, [], [0]),
        use(LOW, [], [0])[:7], b"\5\0\2", bytes(range(40)),
    ]
    for base in (TOGGLE, LAYERED, PRIMITIVES, board(EMPTY)):
        for tail in tails:
            cases.add(base, append(base, tail), (TRAIL, len(base)))
        cases.add(base, append(base, base), (TRAIL, len(base)))
        cases.add(base, append(base, b"\0", 300), (TRAIL, len(base)))


def kind_cases(cases):
    for base in (TOGGLE, LAYERED):
        for start in layout(base).all_records():
            due = base[start + AT_KIND]
            for kind in (0, 1, 2, 3, 4, 255, 256, 256 + due, 512 + due, 65535):
                if kind != due:
                    cases.add(base, put_two(start + AT_KIND, kind), (KIND, start))
            # The kind comes before the counts: here the body is empty too.
            body = record_end(base, start) - start - 4
            wrong = Edit(start, 4 + body, record(9, []))
            cases.add(base, wrong, (KIND, start))
    # One record too few for N, or too many: another kind is due where the next module stands.
    first, second, third = layout(LAYERED).modules
    cases.add(LAYERED, put(first + AT_N, 4), (KIND, second))
    cases.add(LAYERED, put(first + AT_N, 2), (KIND, layout(LAYERED).occurrences[0][2]))
    cases.add(LAYERED, put(third + AT_N, 3), (CUT, len(LAYERED)))
    cases.add(LAYERED, put(third + AT_N, 1), (TRAIL, layout(LAYERED).occurrences[2][1]))
    cases.add(LAYERED, put_two(4, 4), (CUT, len(LAYERED)))
    cases.add(LAYERED, put_two(4, 2), (TRAIL, third))


def record_length_cases(cases):
    for base in (TOGGLE, LAYERED):
        for start in layout(base).all_records():
            end = record_end(base, start)
            length = end - start - 4
            cases.add(base, [put_two(start, length + 1), insert(end, b"\0")], (SHAPE, start))
            cases.add(base, [put_two(start, length - 1), delete(end - 1)], (SHAPE, start))
            cases.add(base, put_two(start, length - 1), (SHAPE, start))
            cases.add(base, put_two(start, length + 256), (CUT, start))
            cases.add(base, [put_two(start, length + 256), insert(end, b"\0", 256)], (SHAPE, start))
            cases.add(base, put_two(start, 65535), (CUT, start))
            left = len(base) - start - 4
            cases.add(base, put_two(start, left), SHAPE if left != length else ACCEPTED)
            cases.add(base, put_two(start, left + 1), (CUT, start))
            # Bodies that are shorter than the counts that every record of the kind has.
            for short in range(min(length, 6)):
                cases.add(base, [put_two(start, short), delete(start + 4 + short, length - short)], (SHAPE, start))


def board_count_cases(cases):
    most = board(*[EMPTY] * 64)
    cases.accept(most)
    for count in (1, 2, 3, 32, 63):
        cases.accept(most, [put_two(4, count), cut_to(most, 6 + 9 * count)])
        cases.add(most, put_two(4, count), (TRAIL, 6 + 9 * count))
        cases.add(most, [put_two(4, count + 1), cut_to(most, 6 + 9 * count)], (CUT, 6 + 9 * count))
    for count in (0, 65, 66, 128, 255, 256, 257, 320, 32768, 65535):
        cases.add(most, put_two(4, count), (SHAPE, 0))
    cases.add(most, [put_two(4, 65), append(most, EMPTY)], (SHAPE, 0))
    cases.add(most, [put_two(4, 0), cut_to(most, 6)], (SHAPE, 0))
    cases.add(board(EMPTY), [put_two(0, 3), insert(6, b"\0")], (SHAPE, 0))


def lows(first, count):
    return [use(LOW, [], [wire]) for wire in range(first, first + count)]


def module_count_cases(cases):
    for inputs in (0, 1, 15, 16):
        cases.accept(board(module(inputs)))
    for inputs in (17, 18, 64, 128):
        cases.add(board(module(inputs)), expect=(SHAPE, 6))
    for outputs in (1, 15, 16):
        cases.accept(board(module(1, [], [0] * outputs)))
    for outputs in (17, 32, 255):
        cases.add(board(module(1, [], [0] * outputs)), expect=(SHAPE, 6))
    for inputs in (0, 1, 7, 16):
        base = board(module(inputs))
        for wires in (inputs - 1, 0):
            if 0 <= wires < inputs:
                cases.add(base, put(6 + AT_W, wires), (SHAPE, 6))
        cases.add(base, put(6 + AT_W, inputs + 1), (DRIVE, 6))
    wires_cases(cases)
    occurrences_cases(cases)
    states_cases(cases)


def wires_cases(cases):
    """128 wires, by eight occurrences of a module with sixteen outputs."""
    sixteen = module(0, lows(0, 1), [0] * 16)
    top = module(0, [use(sub(1), [], range(16 * k, 16 * k + 16)) for k in range(8)], [0, 127])
    base = board(top, sixteen)
    cases.accept(base)
    cases.add(base, put(6 + AT_W, 127), WIRE)
    for wires in (129, 130, 255):
        cases.add(base, put(6 + AT_W, wires), (SHAPE, 6))
    for wire, verdict in ((126, (ACCEPTED, 0)), (128, (WIRE, 6)), (255, (WIRE, 6))):
        cases.add(base, put(6 + AT_LISTS + 1, wire), verdict)
    last = layout(base).occurrences[0][7]
    for wire in (128, 129, 255):
        cases.add(base, put(last + AT_PINS + 15, wire), (WIRE, last))


def occurrences_cases(cases):
    for count in (63, 64):
        cases.accept(board(module(0, lows(0, count), [count - 1])))
        cases.accept(board(module(0, [use(sub(1))] * count), EMPTY))
    for count in (65, 66, 128, 255):
        cases.add(board(module(0, [use(sub(1))] * count), EMPTY), expect=(SHAPE, 6))


def cells(count):
    """Cells on the wires from 0, each fed by the next."""
    return [use(CELL, [(wire + 1) % count], [wire]) for wire in range(count)]


def states_cases(cases):
    for count in (1, 2, 63, 64):
        base = board(module(0, cells(count), [], range(count)))
        cases.accept(base)
        one_more = board(module(0, cells(count), [], [*range(count), 0]))
        cases.add(one_more, expect=(SHAPE, 6))
    cases.add(board(module(0, [], [], [0])), expect=(SHAPE, 6))
    cases.add(board(module(0, lows(0, 2), [], [0, 1, 1])), expect=(SHAPE, 6))
    cases.add(board(module(0, lows(0, 2), [], [0, 1])), expect=(STATE, 6))


def occurrence_count_cases(cases):
    taker, giver = module(16), module(1, [], [0] * 16)
    many = board(module(16, [use(sub(1), range(16)), use(sub(2), [3], range(16, 32))]), taker, giver)
    cases.accept(many)
    first, second = layout(many).occurrences[0]
    cases.add(many, [put_two(first, 21), put(first + AT_A, 17), insert(first + AT_PINS, [0])], (SHAPE, first))
    cases.add(many, [put_two(second, 22), put(second + AT_B, 17), insert(second + AT_PINS + 1, [0])], (SHAPE, second))
    for at in (first + AT_A, first + AT_B, second + AT_A, second + AT_B):
        start = first if at < second else second
        for value in (15, 17, 18, 255, 240):
            if value != many[at]:
                cases.add(many, put(at, value), (SHAPE, start))
    cases.add(many, [put_two(first, 19), put(first + AT_A, 15), delete(first + AT_PINS)], (PINS, first))
    cases.add(many, [put_two(second, 20), put(second + AT_B, 15), delete(second + AT_PINS + 1)], (PINS, second))
    # Sixteen of each pass the counts, and then the pins differ.
    both = board(module(16, [use(sub(1), range(16), range(16, 32))]), module(16))
    cases.add(both, expect=(PINS, layout(both).occurrences[0][0]))


# ---- The length of the file

def largest_gates():
    """32,768 bytes: 42 modules of 64 picks, and a rest."""
    def picks(count):
        return [use(PICK, [0, 1, 2], [3 + wire]) for wire in range(count)]
    return board(*[module(3, picks(64))] * 42, module(3, picks(9), range(1, 12)))


def largest_random():
    """32,768 bytes: modules that use one another, and fillers behind them."""
    made = random_board(Random(3), 56, 8, (40, 64))
    missing = judge.MAX_FILE - len(made)
    fillers = missing // 500
    sizes = [missing // fillers] * fillers
    sizes[0] += missing % fillers
    modules = board(*map(filler_module, sizes))[6:]
    return apply_edits(made, [put_two(4, 56 + fillers), append(made, modules)])


def zeros(base, count):
    """So many bytes more, by two edits, since an edit repeats its block at most 65,535 times."""
    return [append(base, bytes(256), count // 256), append(base, b"\0", count % 256)]


def length_cases(cases):
    gates, mixed = largest_gates(), largest_random()
    for base in (gates, mixed):
        if len(base) != judge.MAX_FILE:
            raise AssertionError(f"a largest file has {len(base)} bytes")
        places = layout(base)
        cases.accept(base)
        cases.add(base, append(base, b"\0"), (LONG, 0))
        cases.add(base, append(base, b"\2\0"), (LONG, 0))
        cases.add(base, cut_to(base, 32767), (CUT, places.all_records()[-1]))
        cases.add(base, put_two(2, 7), (KIND, 0))
        cases.add(base, [put_two(2, 7), append(base, b"\0")], (LONG, 0))
        last = places.all_records()[-1]
        cases.add(base, put_two(last + AT_KIND, 7), (KIND, last))
        cases.add(base, put(6 + AT_W, 129), (SHAPE, 6))
        cases.add(base, put(places.modules[-1] + AT_W, 127), (DRIVE, places.modules[-1]))
        cases.add(base, put(6 + AT_W, 128), (DRIVE, 6))
        deep = places.occurrences[-1][-1]
        cases.add(base, put_two(deep + AT_REFERENCE, 12), (REFER, deep))
        near = places.occurrences[0][0]
        cases.add(base, put_two(near + AT_REFERENCE, 256), (REFER, near))
        cases.add(base, put_two(4, len(places.modules) - 1), (TRAIL, places.modules[-1]))
        cases.add(base, put_two(4, len(places.modules) + 1), (CUT, 32768))
    # The same board one byte longer and shorter: an output more, an output less.
    start = layout(gates).modules[-1]
    cases.add(gates, [put_two(start, 17), put(start + AT_O, 12), insert(start + AT_LISTS, [0])], (LONG, 0))
    cases.accept(gates, [put_two(start, 15), put(start + AT_O, 10), delete(start + AT_LISTS)])
    # Trailing bytes up to the limit, and past it; sizes around a multiple of 65,536.
    for size in (32766, 32767, 32768):
        cases.add(TOGGLE, zeros(TOGGLE, size - 37), (TRAIL, 37))
    for size in (32769, 32770, 32768 + 37, 40000, 65535, 65536, 65536 + 37, 65536 + 32768, 4 * 65536 + 37):
        cases.add(TOGGLE, zeros(TOGGLE, size - 37), (LONG, 0))
    for size in (32769, 65536, 65537):
        cases.add(b"", zeros(b"", size), (LONG, 0))
    cases.add(b"", zeros(b"", 32768), (KIND, 0))
    cases.add(b"", insert(0, b"\xff", 32768), (CUT, 0))
    # A record that fills the file, and one that would need a byte more.
    cases.add(b"", [insert(0, two_bytes(32764) + b"\1\0"), insert(0, b"\1", 32764)], (SHAPE, 0))
    cases.add(b"", [insert(0, two_bytes(32765) + b"\1\0"), insert(0, b"\1", 32764)], (CUT, 0))
    random = Random(7)
    for base in (gates, mixed):
        for _ in range(60):
            cases.add(base, random_mutation(random, base))


# ---- One occurrence

def reference_cases(cases):
    base = board(EMPTY, module(0, [use(sub(2))]), EMPTY, EMPTY)
    cases.accept(base)
    start = layout(base).occurrences[1][0]
    for reference in (0, 1, 2, 3, 4, 9, 10, 11):
        cases.add(base, put_two(start + AT_REFERENCE, reference), (PINS, start))
    for reference in (258, 259):
        cases.accept(base, put_two(start + AT_REFERENCE, reference))
    nowhere = [12, 13, 14, 15, 16, 63, 127, 128, 254, 255, 256, 257, 260, 261, 319, 320, 511, 512, 513, 514, 515]
    for reference in (*nowhere, 767, 1024, 2818, 32768, 33024, 65279, 65280, 65534, 65535):
        cases.add(base, put_two(start + AT_REFERENCE, reference), (REFER, start))
    most = board(module(0, [use(sub(63))]), *[EMPTY] * 62, module(0, lows(0, 1), []))
    start, last = layout(most).occurrences[0][0], layout(most).occurrences[63][0]
    for number in (1, 2, 62, 63):
        cases.accept(most, put_two(start + AT_REFERENCE, sub(number)))
    for number in (0, 64, 65, 255):
        cases.add(most, put_two(start + AT_REFERENCE, sub(number)), (REFER, start))
    for number in (0, 62, 63, 64):
        cases.add(most, put_two(last + AT_REFERENCE, sub(number)), (REFER, last))
    alone = board(module(0, [use(sub(0))]))
    for number in (0, 1, 2):
        cases.add(alone, put_two(17 + AT_REFERENCE - 2, sub(number)), (REFER, 15))


def fed(reference, inputs, outputs):
    """A board with one occurrence of so many pins, in a module with sixteen inputs."""
    outs = range(16, 16 + outputs)
    state = [0] if reference == CELL else []
    return board(module(16, [use(reference, range(inputs), outs)], outs, state))


def pins_cases(cases):
    for reference, count in INPUTS_OF.items():
        cases.accept(fed(reference, count, 1))
        for inputs in sorted({0, 1, 2, 3, 4, 16} - {count}):
            cases.add(fed(reference, inputs, 1), expect=(PINS, layout(fed(reference, inputs, 1)).occurrences[0][0]))
        for outputs in (0, 2, 16):
            data = fed(reference, count, outputs)
            cases.add(data, expect=(PINS, layout(data).occurrences[0][0]))
    shapes = [(0, 0), (0, 1), (1, 0), (2, 1), (1, 2), (16, 16)]
    for inputs, outputs in shapes:
        below = module(inputs, [] if inputs else lows(0, 1), [0] * outputs)
        for a, b in shapes + [(inputs + 1, outputs), (inputs, outputs + 1)]:
            if a <= 16 and b <= 16:
                data = board(module(16, [use(sub(1), range(a), range(16, 16 + b))], []), below)
                start = layout(data).occurrences[0][0]
                cases.add(data, expect=(ACCEPTED, 0) if (a, b) == (inputs, outputs) else (PINS, start))


def wire_cases(cases):
    base = board(module(3, [use(PICK, [0, 1, 2], [3]), use(CELL, [4], [4])], [4], [1]))
    cases.accept(base)
    first, second = layout(base).occurrences[0]
    for wire in (5, 6, 127, 128, 255):
        for start, pins in ((first, 4), (second, 2)):
            for pin in range(pins):
                cases.add(base, put(start + AT_PINS + pin, wire), (WIRE, start))
        cases.add(base, put(6 + AT_LISTS, wire), (WIRE, 6))
    for wire in range(5):
        cases.accept(base, put(second + AT_PINS, wire))
        cases.accept(base, put(6 + AT_LISTS, wire))
    # No wires at all: wire 0 is one too many.
    cases.add(board(module(0, [], [0])), expect=(WIRE, 6))
    cases.add(board(module(0, lows(0, 1), wires=0)), expect=(WIRE, 15))
    cases.add(board(module(0, [use(sub(1), [0])]), module(1)), expect=(WIRE, 15))
    cases.accept(board(module(1, [use(sub(1), [0])]), module(1)))


def order_cases(cases):
    gates_in_order(cases)
    through_modules(cases)
    through_levels(cases)


def gates_in_order(cases):
    for reference, count in INPUTS_OF.items():
        for pin in range(count):
            wires = [0] * count
            state = [0] if reference == CELL else []
            # Wire 1 is its own output, and wire 2 is driven later.
            for late in (1, 2):
                wires[pin] = late
                data = board(module(1, [use(reference, wires, [1]), use(HIGH, [], [2])], [1], state))
                start = layout(data).occurrences[0][0]
                cases.add(data, expect=(ACCEPTED, 0) if reference == CELL else (ORDER, start))
            # The order of the file counts, not that of the wires.
            wires[pin] = 2
            data = board(module(1, [use(HIGH, [], [2]), use(reference, wires, [1])], [1], [1] if state else []))
            cases.accept(data)


# Modules of two inputs and two outputs, and which of the inputs are through.
TWO_BY_TWO = [
    (module(2, [], [0, 1]), {0, 1}),
    (module(2, [], [0, 0]), {0}),
    (module(2, [], [1, 1]), {1}),
    (module(2, lows(2, 1), [2, 2]), set()),
    (module(2, [use(AND, [0, 1], [2])], [2, 2]), {0, 1}),
    (module(2, [use(CELL, [0], [2]), use(CELL, [1], [3])], [2, 3], [0, 1]), set()),
    (module(2, [use(CELL, [0], [2]), use(BUF, [1], [3])], [2, 3], [0]), {1}),
    (module(2, [use(BUF, [0], [2]), use(CELL, [1], [3])], [3, 3], [1]), set()),
    (module(2, [use(BUF, [0], [2]), use(CELL, [2], [3])], [3, 1], [1]), {1}),
    (module(2, [use(CELL, [0], [2]), use(NOT, [2], [3])], [3, 3], [0]), set()),
    (module(2, [use(CELL, [0], [2]), use(XOR, [2, 1], [3])], [3, 2], [0]), {1}),
    (module(2, [use(NOT, [1], [3]), use(NOT, [3], [2]), use(NOT, [2], [4])], [4, 4]), {1}),
    (module(2, [use(CELL, [3], [2]), use(AND, [2, 0], [3])], [2, 2], [0]), set()),
    (module(2, [use(CELL, [3], [2]), use(AND, [2, 0], [3])], [3, 2], [0]), {0}),
    (module(2, [use(PICK, [0, 0, 1], [2]), use(BUF, [0], [3])], [3, 3]), {0}),
]


def through_modules(cases):
    """The part is fed by any two of these wires: 0 is an input, 1 and 2 its own outputs, 3 is driven
    later and 4 earlier."""
    for part, through in TWO_BY_TWO:
        uses = [use(HIGH, [], [4]), use(sub(1), [0, 0], [1, 2]), use(LOW, [], [3])]
        base = board(module(1, uses, [1, 3], [1] if part[AT_S] else []), part)
        start = layout(base).occurrences[0][1]
        late = {1, 2, 3}
        for first in range(5):
            for second in range(5):
                bad = (0 in through and first in late) or (1 in through and second in late)
                edit = put(start + AT_PINS, first, second)
                cases.add(base, edit, (ORDER, start) if bad else (ACCEPTED, 0))


def through_levels(cases):
    """Whether an input is through is handed up from module to module: all outputs of a use are reached."""
    for part, through in TWO_BY_TWO:
        held = [0] if part[AT_S] else []
        for pin in (0, 1):
            for shown in (2, 3):
                # The middle joins its only input to one pin, and a constant to the other.
                pins = [0, 1] if pin == 0 else [1, 0]
                middle = module(1, [use(LOW, [], [1]), use(sub(2), pins, [2, 3])], [shown], [1] if held else [])
                top = module(0, [use(sub(1), [0], [0])], [0], held)
                data = board(top, middle, part)
                start = layout(data).occurrences[0][0]
                cases.add(data, expect=(ORDER, start) if pin in through else (ACCEPTED, 0))
    # Nothing is through in a module without outputs, however its wires run.
    sink = module(2, [use(AND, [0, 1], [2])])
    cases.accept(board(module(0, [use(sub(1), [0, 1]), *lows(0, 2)]), sink))
    # Seven levels of plain wire, and seven with a cell at the bottom.
    wire, cell = module(1, [], [0]), module(1, [use(CELL, [0], [1])], [1], [0])
    for bottom in (wire, cell):
        held = [0] if bottom is cell else []
        levels = [module(1, [use(sub(n + 1), [0], [1])], [1], held) for n in range(1, 7)]
        data = board(module(0, [use(sub(1), [0], [0])], [0], held), *levels, bottom)
        cases.add(data, expect=(ACCEPTED, 0) if held else (ORDER, layout(data).occurrences[0][0]))
    # Two uses in a ring, closed by a cell in the first or in the second, or by none.
    for first, second in ((wire, cell), (cell, wire), (cell, cell), (wire, wire)):
        held = [n for n, part in enumerate((first, second)) if part is cell]
        top = module(0, [use(sub(1), [1], [0]), use(sub(2), [0], [1])], [], held)
        data = board(top, first, second)
        cases.add(data, expect=(ACCEPTED, 0) if first is cell else (ORDER, layout(data).occurrences[0][0]))


def drive_cases(cases):
    base = board(module(2, [use(sub(1), [0], [2, 3]), use(NOT, [1], [4])], [4]), module(1, [], [0, 0]))
    cases.accept(base)
    first, second = layout(base).occurrences[0]
    for wire in (0, 1, 3):
        cases.add(base, put(first + AT_PINS + 1, wire), (DRIVE, first))
    for wire in (0, 1, 2):
        cases.add(base, put(first + AT_PINS + 2, wire), (DRIVE, first))
    for wire in (0, 1, 2, 3):
        cases.add(base, put(second + AT_PINS + 1, wire), (DRIVE, second))
    for wires in (6, 7, 64, 128):
        cases.add(base, put(6 + AT_W, wires), (DRIVE, 6))
    # Wire numbers in any order, and a gap: some wire is left although there are outputs enough.
    cases.accept(base, [put(first + AT_PINS + 1, 4, 2), put(second + AT_PINS + 1, 3)])
    gap = board(module(0, [use(LOW, [], [0]), use(LOW, [], [2])], wires=3))
    cases.add(gap, expect=(DRIVE, 6))
    cases.accept(gap, [put(6 + AT_W, 2), put(layout(gap).occurrences[0][1] + AT_PINS, 1)])
    for wires in (1, 2, 128):
        cases.add(board(module(0, wires=wires)), expect=(DRIVE, 6))
    # A module's cell may drive its own input; a module that is never used is judged as well.
    cases.accept(board(module(0, [use(CELL, [0], [0])], [0], [0])))
    cases.add(board(EMPTY, module(0, wires=1)), expect=(DRIVE, 15))


# ---- One module

def state_cases(cases):
    with_cell = module(1, [use(CELL, [0], [1])], [1], [0])
    without = module(1, [use(NOT, [0], [1])], [1])
    uses = [use(CELL, [0], [1]), use(NOT, [0], [2]), use(sub(1), [0], [3]), use(sub(2), [0], [4]), use(CELL, [0], [5])]

    base = board(module(1, uses, [5]), with_cell, without)

    def top(state):
        """The base with this state list."""
        end = 6 + AT_LISTS + 1
        return [put_two(6, 6 + len(state)), put(6 + AT_S, len(state)), insert(end, state)]

    right = {0, 2, 4}
    for a in range(5):
        for b in range(5):
            for c in range(5):
                cases.add(base, top([a, b, c]), (ACCEPTED, 0) if {a, b, c} == right else (STATE, 6))
    for state in ([], [0], [0, 2], [4, 2], [0, 2, 4, 4], [0, 2, 4, 1], [0, 2, 3, 4], [0, 1, 2, 3, 4], [4, 4, 2, 2, 0]):
        cases.add(base, top(state), (STATE, 6))
    for entry in (5, 6, 63, 64, 127, 128, 255):
        cases.add(base, top([0, 2, entry]), (STATE, 6))
        cases.add(base, top([0, 2, 4, entry]), (STATE, 6))
    deep = board(
        module(0, [use(sub(1)), use(sub(2)), use(sub(3))], [], [1, 0]),
        module(0, [use(sub(2))], [], [0]),
        module(0, [use(CELL, [0], [0])], [], [0]),
        module(0, lows(0, 1)),
    )
    cases.accept(deep)
    for state in ([0, 1], [1, 2], [2, 0], [0, 0], [3, 0]):
        cases.add(deep, put(6 + AT_LISTS, *state), (ACCEPTED, 0) if state == [0, 1] else (STATE, 6))
    cases.add(deep, put(layout(deep).modules[1] + AT_LISTS, 1), (STATE, layout(deep).modules[1]))


def chain(length, last=EMPTY):
    """A board in which each module uses the next one."""
    return board(*[module(0, [use(sub(n + 1))]) for n in range(length - 1)], last)


def depth_cases(cases):
    for length in range(1, 9):
        cases.accept(chain(length))
    cases.add(chain(9), expect=(SIZE, 6))
    for length in (10, 11, 17, 64):
        data = chain(length)
        cases.add(data, expect=(SIZE, layout(data).modules[length - 9]))
    # Not used by the top, and still too deep.
    data = board(EMPTY, *[module(0, [use(sub(n + 1))]) for n in range(1, 9)], EMPTY)
    cases.add(data, expect=(SIZE, 15))
    # The greatest depth counts, wherever the deep one stands among the uses.
    tail = [module(0, [use(sub(n + 1))]) for n in range(1, 8)]
    for order in ([1, 8], [8, 1], [8, 2, 1, 3], [1], [2, 8, 3]):
        data = board(module(0, [use(sub(n)) for n in order]), *tail, EMPTY)
        cases.add(data, expect=(SIZE, 6) if 1 in order else (ACCEPTED, 0))


def with_top(top):
    """Another top for a base whose top is EMPTY."""
    return Edit(6, len(EMPTY), top)


def cell_cases(cases):
    """Modules 1 to 4 have 4,096, 4,032, some more and 64 cells."""
    def rank(count):
        return module(0, cells(count), [], range(count))

    def uses_of(number, count):
        return module(0, [use(sub(number))] * count, [], range(count))

    def top(*uses):
        return with_top(module(0, uses, [], range(len(uses))))

    one_cell = use(CELL, [0], [0])
    for some in (62, 63, 64):
        base = board(EMPTY, uses_of(4, 64), uses_of(4, 63), rank(some), rank(64))
        total = 4032 + some
        cases.accept(base, top(use(sub(2)), use(sub(3))))
        cases.add(base, top(use(sub(2)), one_cell, use(sub(3))), (ACCEPTED, 0) if total + 1 <= 4096 else (SIZE, 6))
        cases.add(base, top(use(sub(3)), use(sub(3)), use(sub(2))), (SIZE, 6))
    cases.accept(base, top(*[use(sub(4))] * 64))
    cases.accept(base, top(use(sub(1))))
    cases.add(base, top(use(sub(1)), one_cell), (SIZE, 6))
    cases.add(base, top(one_cell, use(sub(1))), (SIZE, 6))
    # 64 times 4,096 is a multiple of 65,536.
    for count in (2, 16, 64):
        cases.add(base, top(*[use(sub(1))] * count), (SIZE, 6))
    # Not in the top.
    cases.add(board(EMPTY, uses_of(2, 2), uses_of(3, 64), rank(64)), expect=(SIZE, 15))


def places_cases(cases):
    """Modules 1 to 3 have 4,160, 64 and 0 places, so a use of them counts 4,161, 65 and 1."""
    base = board(EMPTY, module(0, [use(sub(2))] * 64), module(0, [use(sub(3))] * 64), EMPTY)

    def top(big, small, single, *more):
        uses = [use(sub(1))] * big + [use(sub(2))] * small + [use(sub(3))] * single
        return with_top(module(0, [*uses, *more]))

    sums = {
        (15, 48, 0): 65535, (15, 48, 1): 65536, (15, 47, 2): 65472, (16, 0, 0): 66576, (15, 49, 0): 65600,
        (31, 32, 1): 131072, (64, 0, 0): 266304, (1, 0, 0): 4161, (0, 0, 64): 64, (0, 1, 63): 128, (15, 0, 0): 62415,
    }
    for (big, small, single), total in sums.items():
        if 4161 * big + 65 * small + single != total:
            raise AssertionError(f"{total} places")
        cases.add(base, top(big, small, single), (ACCEPTED, 0) if total <= 65535 else (SIZE, 6))
    # Gates and cells have a place each as well.
    cases.add(base, top(15, 48, 0, *lows(0, 1)), (SIZE, 6))
    cases.accept(base, top(15, 47, 0, *lows(0, 2)))
    # A module with 65,535 places is accepted, and what uses it is not.
    uses = [use(sub(2))] * 15 + [use(sub(3))] * 48
    below = [module(0, [use(sub(3))] * 64), module(0, [use(sub(4))] * 64), EMPTY]
    exact = board(EMPTY, module(0, uses), *below)
    cases.accept(exact)
    cases.add(exact, with_top(module(0, [use(sub(1))])), (SIZE, 6))
    cases.add(board(EMPTY, module(0, [*uses, use(sub(4))]), *below), expect=(SIZE, 15))


def plain_cases(cases):
    """Tops and modules with little inside, unused modules, and outputs that repeat wires and name inputs."""
    cases.accept(board(EMPTY))
    cases.accept(board(EMPTY, EMPTY, EMPTY))
    cases.accept(board(module(0, [use(sub(1)), use(sub(1)), use(sub(2))]), EMPTY, EMPTY))
    cases.accept(board(EMPTY, module(1, [use(NOT, [0], [1])], [1])))
    cases.accept(board(module(16, [], range(16))))
    cases.accept(board(module(16, [], [15] * 16)))
    cases.accept(board(module(3, [use(AND, [0, 1], [3])], [3, 3, 0, 2, 0])))
    cases.accept(board(module(1, [use(sub(1), [0], [1, 2, 3])], [3, 1, 1]), module(1, [use(BUF, [0], [1])], [1, 0, 1])))
    for fault, number in ((use(AND, [0, 0], [1]), DRIVE), (use(12, [0, 0], [2]), REFER), (use(NOT, [2], [2]), ORDER)):
        # An unused module with a fault.
        data = board(EMPTY, module(2, [fault], wires=3))
        cases.add(data, expect=(number, layout(data).occurrences[1][0]))
    cases.add(board(EMPTY, module(0, cells(2), [], [0, 0])), expect=(STATE, 15))
    cases.add(board(EMPTY, module(1, [], [1])), expect=(WIRE, 15))


# ---- Two refusals in one file

def faults_of_layered():
    """Faults of LAYERED in the order in which they are judged: number, place, edits that keep all else in place."""
    places = layout(LAYERED)
    faults = [(LONG, 0, append(LAYERED, b"\0", 40000))]
    last = places.all_records()[-1]
    for start in places.all_records():
        if start == last:
            faults.append((CUT, start, delete(len(LAYERED) - 1)))
        faults.append((KIND, start, put(start + AT_KIND + 1, 1)))
        if start == 0:
            faults.append((SHAPE, start, put(5, 1)))
        elif start in places.modules:
            faults.append((SHAPE, start, put(start + AT_I, 17)))
        else:
            faults.append((SHAPE, start, put(start + AT_B, 2)))
    faults.append((TRAIL, len(LAYERED), append(LAYERED, b"\0")))
    for number in (2, 1, 0):
        for index, start in enumerate(places.occurrences[number]):
            faults += occurrence_faults(number, index, start)
        faults += module_faults(number, places.modules[number])
    return faults


def occurrence_faults(number, index, start):
    inputs = LAYERED[start + AT_A]
    output = start + AT_PINS + inputs
    faults = [
        (REFER, start, put(start + AT_REFERENCE, 99)),
        (PINS, start, put_two(start + AT_REFERENCE, PICK)),
        (WIRE, start, put(start + AT_PINS, 250)),
        (WIRE, start, put(output, 250)),
    ]
    if (number, index) in ((2, 0), (2, 1), (1, 1), (1, 2), (0, 2)):
        faults.append((ORDER, start, put(start + AT_PINS, LAYERED[output])))
    if number != 2 or index != 1:
        faults.append((DRIVE, start, put(output, 0)))
    return faults


def module_faults(number, start):
    outputs = LAYERED[start + AT_O]
    faults = [(WIRE, start, put(start + AT_LISTS, 250)), (DRIVE, start, put(start + AT_W, 9))]
    if LAYERED[start + AT_S]:
        faults.append((STATE, start, put(start + AT_LISTS + outputs, 77)))
    return faults


def disjoint(one, other):
    first, second = sorted((one, other), key=lambda edit: (edit.at, edit.ends()))
    touching = first.ends() == second.at and second.drop == 0
    return first.ends() <= second.at and first.at != second.at and not touching


def pair_cases(cases):
    """Of two faults the one that is judged first is the verdict. A third of all pairs is taken."""
    random = Random(2)
    faults = faults_of_layered()
    for number, place, edit in faults:
        cases.add(LAYERED, edit, (number, place))
    for index, (number, place, edit) in enumerate(faults):
        for _, _, other in faults[index + 1:]:
            if disjoint(edit, other) and random.chance(35):
                cases.add(LAYERED, sorted((edit, other), key=lambda e: e.at), (number, place))


def subsets(items):
    if not items:
        return [set()]
    rest = subsets(items[1:])
    return rest + [{items[0], *each} for each in rest]


def occurrence_subset_cases(cases):
    """All combinations of what can be wrong with one occurrence."""
    for wrong in subsets([REFER, PINS, WIRE, ORDER, DRIVE]):
        inputs = [250 if WIRE in wrong else 0, 3 if ORDER in wrong else 1]
        inputs += [0] if PINS in wrong else []
        faulty = use(12 if REFER in wrong else AND, inputs, [0 if DRIVE in wrong else 2])
        data = board(module(2, [faulty, use(HIGH, [], [3])], [2], wires=4))
        cases.add(data, expect=(min(wrong), layout(data).occurrences[0][0]) if wrong else (ACCEPTED, 0))


def module_subset_cases(cases):
    """All combinations of what can be wrong with one module."""
    tail = [module(0, [use(sub(n + 1))]) for n in range(1, 8)]
    for wrong in subsets([WIRE, DRIVE, STATE, SIZE]):
        deep = sub(1) if SIZE in wrong else sub(2)
        uses = [use(CELL, [0], [0]), use(deep)]
        outputs, state = [9 if WIRE in wrong else 0], [1 if STATE in wrong else 0]
        data = board(module(0, uses, outputs, state, wires=2 if DRIVE in wrong else 1), *tail, EMPTY)
        cases.add(data, expect=(min(wrong), 6) if wrong else (ACCEPTED, 0))


def neighbour_cases(cases):
    """A low number later against a high number earlier: between occurrences, and between modules."""
    faulty = {
        REFER: use(12, [0, 0], [1]), PINS: use(AND, [0], [1]), WIRE: use(AND, [0, 99], [1]),
        ORDER: use(AND, [0, 1], [1]), DRIVE: use(AND, [0, 0], [0]),
    }
    for one, first in faulty.items():
        for other, second in faulty.items():
            data = board(module(1, [first, second], wires=3))
            cases.add(data, expect=(one, layout(data).occurrences[0][0]))
            data = board(module(1, [second], wires=3), module(1, [first], wires=3))
            cases.add(data, expect=(one, layout(data).occurrences[1][0]))
            # The occurrence comes before its module's own faults.
            data = board(module(1, [first], [99], wires=9))
            cases.add(data, expect=(one, layout(data).occurrences[0][0]))
            # A fault of a later module's own comes before an earlier module's occurrence.
            data = board(module(1, [first], wires=3), module(1, [], [99]))
            cases.add(data, expect=(WIRE, layout(data).modules[1]))


# ---- Records exchanged, damage, random boards

def exchange_cases(cases):
    for base in (LAYERED, PRIMITIVES):
        starts = layout(base).all_records()
        for index, first in enumerate(starts):
            for second in starts[index + 1:]:
                cases.add(base, exchange(base, first, second))
    # Whole modules exchanged.
    parts = layout(LAYERED).modules + [len(LAYERED)]
    chunks = [LAYERED[a:b] for a, b in zip(parts, parts[1:])]
    for order in ((0, 2, 1), (1, 0, 2), (1, 2, 0), (2, 0, 1), (2, 1, 0)):
        cases.add(LAYERED, Edit(6, len(LAYERED) - 6, b"".join(chunks[n] for n in order)))


def damage_cases(cases):
    for base in (LAYERED, PRIMITIVES):
        for at, old in enumerate(base):
            for value in sorted({0, 1, 255, (old + 1) % 256, (old - 1) % 256, old ^ 128} - {old}):
                cases.add(base, put(at, value))
    random = Random(11)
    for seed in range(12):
        base = random_board(Random(9000 + seed), 8, 6, (0, 12))
        cases.accept(base)
        for _ in range(60):
            at = random.below(len(base))
            cases.add(base, put(at, random.pick([random.below(256), (base[at] + 1) % 256, (base[at] - 1) % 256])))


# modules at most, pins at most, occurrences at most, how many boards, mutations of each
RANDOM_SIZES = [(5, 4, 6, 320, 6), (2, 3, 4, 190, 6), (9, 6, 8, 45, 8), (6, 16, 10, 25, 8), (16, 3, 5, 25, 8)]


def random_cases(cases):
    for size, (modules, pins, occurrences, count, mutations) in enumerate(RANDOM_SIZES):
        for seed in range(count):
            random = Random(100000 * (size + 1) + seed)
            base = random_board(random, random.between(1, modules), pins, (0, occurrences))
            cases.accept(base)
            for _ in range(mutations):
                cases.add(base, random_mutation(random, base))


FAMILIES = [
    ("toggle", toggle_cases), ("truncated", truncation_cases), ("appended", appended_cases), ("kind", kind_cases),
    ("record length", record_length_cases), ("board counts", board_count_cases), ("module counts", module_count_cases),
    ("occurrence counts", occurrence_count_cases), ("file length", length_cases), ("reference", reference_cases),
    ("pins", pins_cases), ("wire", wire_cases), ("order", order_cases), ("drive", drive_cases), ("state", state_cases),
    ("depth", depth_cases), ("cells", cell_cases), ("places", places_cases), ("plain", plain_cases),
    ("two faults", pair_cases), ("occurrence faults", occurrence_subset_cases), ("module faults", module_subset_cases),
    ("neighbours", neighbour_cases), ("exchanged", exchange_cases), ("damaged", damage_cases), ("random", random_cases),
]


def all_cases():
    cases = Cases()
    for family, make in FAMILIES:
        cases.family = family
        make(cases)
    return cases.cases


# ---- What is written

def encoded_edits(edits):
    row, at = bytes([len(edits)]), 0
    for edit in edits:
        row += b"".join(map(two_bytes, (edit.at - at, edit.drop, edit.times, len(edit.block)))) + edit.block
        at = edit.ends()
    return row


def encoded_figures(data):
    top = judge.figures(data)
    return bytes([top.modules]) + two_bytes(top.cells) + two_bytes(top.places) + bytes([top.depth])


def encoded(cases):
    """bases.bin and cases.bin."""
    numbers = {}
    rows = []
    for _, base, edits, data, (verdict, place) in cases:
        number = numbers.setdefault(base, len(numbers))
        figures = encoded_figures(data) if verdict == ACCEPTED else b""
        rows.append(two_bytes(number) + bytes([verdict]) + two_bytes(place) + figures + encoded_edits(edits))
    bases = [two_bytes(len(base)) + base for base in numbers]
    return two_bytes(len(bases)) + b"".join(bases), two_bytes(len(rows)) + b"".join(rows)


def verdict_name(number):
    return judge.NAMES.get(number, "accepted")


def counts_of(cases):
    return [sum(verdict == number for *_, (verdict, _) in cases) for number in range(13)]


def expected_output(cases):
    lines = [f"{number:2} {verdict_name(number):8} {count:6}" for number, count in enumerate(counts_of(cases))]
    return "\n".join([*lines, f"{len(cases)} files, 0 mismatches", ""])


def summary(cases):
    heads = ["all"] + [verdict_name(number)[:5] for number in range(13)]
    lines = [" " * 18 + "".join(f"{head:>6}" for head in heads)]
    for family in [name for name, _ in FAMILIES] + [None]:
        verdicts = [verdict for name, *_, (verdict, _) in cases if family in (None, name)]
        counts = [len(verdicts)] + [verdicts.count(number) for number in range(13)]
        lines.append(f"{family or 'all':18}" + "".join(f"{count or '.':>6}" for count in counts))
    return "\n".join(lines)


def main(arguments):
    cases = all_cases()
    if arguments[1:2] == ["--show"]:
        family, _, _, data, (verdict, place) = cases[int(arguments[2])]
        print(f"{family}: {verdict} {verdict_name(verdict)} at {place}\n{data.hex(' ')}")
        return 0
    if counts_of(cases) != COUNTS:
        raise AssertionError(f"COUNTS is to be {counts_of(cases)}")
    bases, rows = encoded(cases)
    files = {
        CRATE / "data" / "bases.bin": bases,
        CRATE / "data" / "cases.bin": rows,
        CRATE / "stdout": expected_output(cases).encode(),
    }
    print(summary(cases))
    print(f"{len(bases)} bytes of bases, {len(rows)} bytes of cases")
    if arguments[1:] == ["--check"]:
        stale = [path.name for path, data in files.items() if not path.exists() or path.read_bytes() != data]
        print("out of date: " + ", ".join(stale) if stale else "up to date")
        return 1 if stale else 0
    for path, data in files.items():
        path.parent.mkdir(parents=True, exist_ok=True)
        path.write_bytes(data)
    return 0


if __name__ == "__main__":
    sys.exit(main(sys.argv))
