#!/usr/bin/env python3
"""Makes the cases of the crate transcript_tests: for each case NAME.board, NAME.input and NAME.text, and the names.

The expected texts are those of transcript.py. Run it from anywhere: python3 tests/reference/transcripts.py
"""

import sys
from pathlib import Path

from boards import AND, BUF, CELL, EMPTY, HIGH, NAND, NOR, NOT, OR, PICK, XNOR, XOR, board, module, sub, use
from generator import Random, random_board
from transcript import transcript

CRATE = Path(__file__).resolve().parents[2] / "crates" / "transcript_tests"

TOGGLE = board(module(0, [use(CELL, [1], [0]), use(NOT, [0], [1])], [0], [0]))

# May a tractor's engine turn? The inputs: the driver sits, the clutch is down, the brake is down, the power take-off is in,
# the key is turned. It starts with all of that but the power take-off, and it goes on turning as long as the driver sits or
# the power take-off is out. Module 1 latches the start.
INTERLOCK = board(
    module(
        5,
        [
            use(NOT, [3], [5]),
            use(AND, [1, 2], [6]),
            use(AND, [5, 6], [7]),
            use(AND, [0, 4], [8]),
            use(AND, [7, 8], [9]),
            use(OR, [0, 5], [10]),
            use(sub(1), [9, 10], [11]),
        ],
        [11, 9],
        [6],
    ),
    module(2, [use(CELL, [4], [2]), use(AND, [1, 2], [3]), use(OR, [0, 3], [4])], [4], [0]),
)

# Each of the gates of two inputs, and a pick, on inputs 0, 1 and 2.
GATES = board(
    module(
        3,
        [use(gate, [0, 1], [3 + k]) for k, gate in enumerate([AND, OR, XOR, NAND, NOR, XNOR])] + [use(PICK, [0, 1, 2], [9])],
        [3, 4, 5, 6, 7, 8, 9],
    )
)

# Two cells in a row, each in a module of its own; the state list has the second one first.
SHIFT = board(
    module(1, [use(sub(1), [2], [1]), use(sub(1), [0], [2])], [1], [1, 0]),
    module(1, [use(CELL, [0], [1])], [1], [0]),
)


def deep(last):
    """Eight modules, each in the one before; each turns its bit around, and the last one has a cell besides."""
    through = [module(1, [use(NOT, [0], [1]), use(sub(n + 1), [1], [2])], [2], [1]) for n in range(7)]
    return board(*through, last)


DEEP = deep(module(1, [use(CELL, [0], [1]), use(XOR, [0, 1], [2])], [2], [0]))

SILENT = board(module(1, [use(CELL, [0], [1])], [], [0]))

WIDE = board(module(1, [use(BUF, [0], [1])], [0, 1] * 8))


def lines(*texts):
    return "".join(text + "\n" for text in texts).encode()


def random_lines(random, inputs, count):
    return lines(*["".join(random.pick("01?") for _ in range(inputs)) for _ in range(count)])


def random_cases():
    for seed in range(1, 9):
        random = Random(seed)
        file = random_board(random, random.between(1, 6), 6, (2, 12))
        yield f"random_{seed}", file, random_lines(random, file[10], 12)


def all_settings(count):
    """Every line of so many characters 0, 1 and ?."""
    settings = [""]
    for _ in range(count):
        settings = [text + mark for text in settings for mark in "01?"]
    return lines(*settings)


def cases():
    yield "toggle", TOGGLE, lines("", "")
    yield "toggle_longer", TOGGLE, lines("", "", "", "", "")
    yield "no_input", TOGGLE, b""
    yield "interlock", INTERLOCK, lines("11111", "11101", "11100", "10010", "10000", "00000", "00010", "11100", "11101", "00000")
    yield "interlock_unknown", INTERLOCK, lines("?1101", "?0010", "10000", "1????", "00010", "10000", "?????", "11101", "1000?")
    yield "gates", GATES, all_settings(3)
    yield "shift", SHIFT, lines("1", "0", "0", "0", "?", "1", "0")
    yield "deep", DEEP, lines("1", "0", "?", "1", "1", "0")
    yield "no_outputs", SILENT, lines("1", "0", "?")
    yield "empty_top", board(EMPTY), lines("", "", "")
    yield "high", board(module(0, [use(HIGH, [], [0])], [0])), lines("", "x", "")
    yield "tape_full", WIDE, lines(*["1"] * 255, "?", "0", "", "1", "00", "1")
    yield "wrong_length", INTERLOCK, lines("1111", "111111", "", "11101", "1")
    yield "wrong_character", INTERLOCK, lines("1110 ", "1110x", "1110/", "11102", "1110>", "1110@", "11101")
    yield "carriage_return", INTERLOCK, b"11101\r\n11101\r11101\n1110\r\n11101\n"
    yield "carriage_return_alone", TOGGLE, b"\r\n\n\r\r\n\n"
    yield "bytes", INTERLOCK, b"1110\x00\n1110\x80\n1110\xb0\n\xff\xff\xff\xff\xff\n11101\n"
    yield "last_line_open", INTERLOCK, b"11101\n10000"
    yield "last_line_ill", INTERLOCK, b"11101\n1000"
    yield "last_line_empty", TOGGLE, b"\n\nx"
    yield "refused_empty", b"", lines("1")
    yield "refused_cut", TOGGLE[:36], lines("", "")
    yield "refused_trail", TOGGLE + b"\0", lines("", "")
    yield "refused_order", board(module(0, [use(NOT, [0], [1]), use(CELL, [1], [0])], [0], [1])), lines("", "")
    yield "refused_long", bytes(32769), lines("")
    yield "refused_deep", board(*[module(0, [use(sub(n + 1))]) for n in range(8)], EMPTY), lines("")
    yield from random_cases()


def main():
    data = CRATE / "data"
    data.mkdir(parents=True, exist_ok=True)
    names = []
    for name, file, given in cases():
        names.append(name)
        (data / f"{name}.board").write_bytes(file)
        (data / f"{name}.input").write_bytes(given)
        (data / f"{name}.text").write_text(transcript(file, given))
    (data / "names").write_text("".join(name + "\n" for name in names))
    (CRATE / "stdout").write_text("".join(f"{name} agrees\n" for name in names) + f"{len(names)} cases, 0 mismatches\n")


if __name__ == "__main__":
    sys.setrecursionlimit(100000)
    main()
