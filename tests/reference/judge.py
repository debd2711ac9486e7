#!/usr/bin/env python3
"""The reference judge of board files, written from docs/BOARD-FILE.md alone.

It says each rule as directly as it can, and takes no care of speed: a file is
decoded into objects first, and what is reached or driven is a set.
Run it on a file: python3 tests/reference/judge.py FILE
"""

import sys
from dataclasses import dataclass

LONG, CUT, KIND, SHAPE, TRAIL, REFER, PINS, WIRE, ORDER, DRIVE, STATE, SIZE = range(1, 13)

NAMES = {
    LONG: "LONG", CUT: "CUT", KIND: "KIND", SHAPE: "SHAPE", TRAIL: "TRAIL", REFER: "REFER",
    PINS: "PINS", WIRE: "WIRE", ORDER: "ORDER", DRIVE: "DRIVE", STATE: "STATE", SIZE: "SIZE",
}

KIND_BOARD, KIND_MODULE, KIND_OCCURRENCE = 1, 2, 3

MAX_FILE = 32768
MAX_MODULES = 64
MAX_PINS = 16
MAX_WIRES = 128
MAX_OCCURRENCES = 64
MAX_DEPTH = 8
MAX_CELLS = 4096
MAX_PLACES = 65535

# Reference -> (name, number of inputs); each has one output.
PRIMITIVES = {
    0: ("low", 0), 1: ("high", 0),
    2: ("buf", 1), 3: ("not", 1),
    4: ("and", 2), 5: ("or", 2), 6: ("xor", 2), 7: ("nand", 2), 8: ("nor", 2), 9: ("xnor", 2),
    10: ("pick", 3),
    11: ("cell", 1),
}
FIRST_MODULE_REFERENCE = 256


class Refused(Exception):
    def __init__(self, number, place):
        super().__init__(f"{NAMES[number]} at {place}")
        self.number = number
        self.place = place


@dataclass
class Occurrence:
    place: int
    reference: int
    inputs: list
    outputs: list


@dataclass
class Module:
    place: int
    inputs: int
    wires: int
    outputs: list
    state: list
    occurrences: list


@dataclass
class Part:
    """What a module needs to know of a thing that it uses: a gate, a cell or a judged module."""

    inputs: int
    outputs: int
    through: set
    cells: int
    places: int
    depth: int


@dataclass
class Figures:
    modules: int
    cells: int
    places: int
    depth: int


def number_at(data, at):
    return int.from_bytes(data[at:at + 2], "little")


# ---- Reading the records

class Reader:
    def __init__(self, data):
        self.data = data
        self.at = 0

    def record(self, due_kind):
        """The place and the body of the next record, which must be of the due kind."""
        place = self.at
        rest = self.data[place:]
        if len(rest) < 4 or len(rest) < 4 + number_at(rest, 0):
            raise Refused(CUT, place)
        length, kind = number_at(rest, 0), number_at(rest, 2)
        if kind != due_kind:
            raise Refused(KIND, place)
        self.at = place + 4 + length
        return place, rest[4:4 + length]

    def end(self):
        if self.at < len(self.data):
            raise Refused(TRAIL, self.at)


def read_board(reader):
    place, body = reader.record(KIND_BOARD)
    if len(body) != 2 or not 1 <= number_at(body, 0) <= MAX_MODULES:
        raise Refused(SHAPE, place)
    return number_at(body, 0)


def read_module(reader):
    place, body = reader.record(KIND_MODULE)
    if len(body) < 5:
        raise Refused(SHAPE, place)
    inputs, outputs, wires, occurrences, states = body[:5]
    in_range = (
        inputs <= MAX_PINS
        and outputs <= MAX_PINS
        and inputs <= wires <= MAX_WIRES
        and occurrences <= MAX_OCCURRENCES
        and states <= occurrences
    )
    if not in_range or len(body) != 5 + outputs + states:
        raise Refused(SHAPE, place)
    return Module(
        place=place,
        inputs=inputs,
        wires=wires,
        outputs=list(body[5:5 + outputs]),
        state=list(body[5 + outputs:]),
        occurrences=[read_occurrence(reader) for _ in range(occurrences)],
    )


def read_occurrence(reader):
    place, body = reader.record(KIND_OCCURRENCE)
    if len(body) < 4:
        raise Refused(SHAPE, place)
    inputs, outputs = body[2], body[3]
    if inputs > MAX_PINS or outputs > MAX_PINS or len(body) != 4 + inputs + outputs:
        raise Refused(SHAPE, place)
    return Occurrence(
        place=place,
        reference=number_at(body, 0),
        inputs=list(body[4:4 + inputs]),
        outputs=list(body[4 + inputs:]),
    )


def read_file(data):
    if len(data) > MAX_FILE:
        raise Refused(LONG, 0)
    reader = Reader(data)
    modules = [read_module(reader) for _ in range(read_board(reader))]
    reader.end()
    return modules


# ---- Judging the modules

def primitive(reference):
    name, inputs = PRIMITIVES[reference]
    is_cell = name == "cell"
    return Part(
        inputs=inputs,
        outputs=1,
        through=set() if is_cell else set(range(inputs)),
        cells=1 if is_cell else 0,
        places=0,
        depth=0,
    )


def part_of(reference, own_number, judged):
    """What the reference names where it stands in module own_number, or None."""
    if reference in PRIMITIVES:
        return primitive(reference)
    number = reference - FIRST_MODULE_REFERENCE
    return judged.get(number) if number > own_number else None


def driven_before(module, index):
    """The wires driven by a module input or an occurrence before the one at index."""
    driven = set(range(module.inputs))
    for occurrence in module.occurrences[:index]:
        driven |= set(occurrence.outputs)
    return driven


def check_occurrence(module, index, part):
    occurrence = module.occurrences[index]
    place, inputs, outputs = occurrence.place, occurrence.inputs, occurrence.outputs
    if part is None:
        raise Refused(REFER, place)
    if (len(inputs), len(outputs)) != (part.inputs, part.outputs):
        raise Refused(PINS, place)
    if any(wire >= module.wires for wire in inputs + outputs):
        raise Refused(WIRE, place)
    driven = driven_before(module, index)
    if not {inputs[pin] for pin in part.through} <= driven:
        raise Refused(ORDER, place)
    if set(outputs) & driven or len(set(outputs)) < len(outputs):
        raise Refused(DRIVE, place)


def reached_from(source, module, parts):
    """The wires that an input wire reaches: the least set that is closed under the rules."""
    reached = {source}
    while True:
        grown = set(reached)
        for occurrence, part in zip(module.occurrences, parts):
            if any(occurrence.inputs[pin] in reached for pin in part.through):
                grown |= set(occurrence.outputs)
        if grown == reached:
            return reached
        reached = grown


def through_inputs(module, parts):
    return {
        source
        for source in range(module.inputs)
        if reached_from(source, module, parts) & set(module.outputs)
    }


def check_module(module, parts):
    """The module's own checks, when all its occurrences are in order; the part that it makes."""
    if any(wire >= module.wires for wire in module.outputs):
        raise Refused(WIRE, module.place)
    if driven_before(module, len(module.occurrences)) != set(range(module.wires)):
        raise Refused(DRIVE, module.place)
    holding = [number for number, part in enumerate(parts) if part.cells > 0]
    if sorted(module.state) != holding:
        raise Refused(STATE, module.place)
    made = Part(
        inputs=module.inputs,
        outputs=len(module.outputs),
        through=through_inputs(module, parts),
        cells=sum(part.cells for part in parts),
        places=len(parts) + sum(part.places for part in parts),
        depth=1 + max((part.depth for part in parts), default=0),
    )
    if made.depth > MAX_DEPTH or made.cells > MAX_CELLS or made.places > MAX_PLACES:
        raise Refused(SIZE, module.place)
    return made


def judge_modules(modules):
    judged = {}
    for number in reversed(range(len(modules))):
        module = modules[number]
        parts = []
        for index, occurrence in enumerate(module.occurrences):
            part = part_of(occurrence.reference, number, judged)
            check_occurrence(module, index, part)
            parts.append(part)
        judged[number] = check_module(module, parts)
    top = judged[0]
    return Figures(len(modules), top.cells, top.places, top.depth)


def figures(data):
    """The figures of an accepted file; raises Refused for any other."""
    return judge_modules(read_file(bytes(data)))


def judge(data):
    """(0, 0) where the file is accepted, else the refusal's number and its place."""
    try:
        figures(data)
    except Refused as refused:
        return refused.number, refused.place
    return 0, 0


def main(arguments):
    if len(arguments) != 2:
        print("usage: judge.py FILE", file=sys.stderr)
        return 2
    with open(arguments[1], "rb") as file:
        data = file.read()
    try:
        top = figures(data)
    except Refused as refused:
        print(f"refused: {refused.number} {refused}")
        return 1
    print(f"accepted: modules {top.modules}, cells {top.cells}, places {top.places}, depth {top.depth}")
    return 0


if __name__ == "__main__":
    sys.exit(main(sys.argv))
