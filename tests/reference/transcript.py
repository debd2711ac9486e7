#!/usr/bin/env python3
"""The reference transcript of a board file and an input, written from docs/BOARD-FILE.md and docs/CABRUN.md alone.

It makes no passes. The modules are taken apart into one flat network of gates and cells, and a wire's value is asked
for where it is needed. A gate's count is worked out from where it stands, before the first step.
Run it on two files: python3 tests/reference/transcript.py BOARD INPUT
"""

import sys

import judge

TAPE_VALUES = 4096
LAST_CYCLE = 65535

UNKNOWN = "?"
CHARACTERS = "01?"


# ---- Three levels: the characters 0, 1 and ?

def fillings(value):
    return (0, 1) if value == UNKNOWN else (int(value),)


def settled(values):
    """The bit that all fillings agree on."""
    found = set(values)
    return str(found.pop()) if len(found) == 1 else UNKNOWN


def two_fold(rule):
    return lambda a, b: settled(rule(x, y) for x in fillings(a) for y in fillings(b))


def inverse(a):
    return settled(1 - x for x in fillings(a))


def pick(select, first, second):
    return {"0": second, "1": first, UNKNOWN: UNKNOWN}[select]


GATES = {
    "low": lambda: "0",
    "high": lambda: "1",
    "buf": lambda a: a,
    "not": inverse,
    "and": two_fold(lambda x, y: x & y),
    "or": two_fold(lambda x, y: x | y),
    "xor": two_fold(lambda x, y: x ^ y),
    "nand": two_fold(lambda x, y: 1 - (x & y)),
    "nor": two_fold(lambda x, y: 1 - (x | y)),
    "xnor": two_fold(lambda x, y: 1 - (x ^ y)),
    "pick": pick,
}


# ---- The flat network

class Network:
    """Wires of all places, by number. A wire is an input, a gate's output, a cell's output, or another name of a wire."""

    def __init__(self, modules):
        self.modules = modules
        self.sources = []
        self.cell_inputs = []
        self.count = 0
        top = modules[0]
        self.inputs = self.wires(top.inputs)
        for number, wire in enumerate(self.inputs):
            self.sources[wire] = ("input", number)
        self.outputs = self.place(0, self.inputs, 1)

    def wires(self, count):
        first = len(self.sources)
        self.sources += [None] * count
        return list(range(first, first + count))

    def holds_cells(self, reference):
        if reference < judge.FIRST_MODULE_REFERENCE:
            return judge.PRIMITIVES[reference][0] == "cell"
        module = self.modules[reference - judge.FIRST_MODULE_REFERENCE]
        return any(self.holds_cells(each.reference) for each in module.occurrences)

    def place(self, number, inputs, rounds):
        """One use of a module: its output wires. Its gates are evaluated so many times in a step: once for the top's
        outputs, and once more for each module around them that stores cells."""
        module = self.modules[number]
        wires = inputs + self.wires(module.wires - module.inputs)
        # Cells lie in the order of the state list.
        for index in module.state + [i for i in range(len(module.occurrences)) if i not in module.state]:
            self.connect(module.occurrences[index], wires, rounds)
        return [wires[wire] for wire in module.outputs]

    def connect(self, occurrence, wires, rounds):
        inputs = [wires[wire] for wire in occurrence.inputs]
        outputs = [wires[wire] for wire in occurrence.outputs]
        reference = occurrence.reference
        if reference >= judge.FIRST_MODULE_REFERENCE:
            more = rounds + 1 if self.holds_cells(reference) else rounds
            given = self.place(reference - judge.FIRST_MODULE_REFERENCE, inputs, more)
            for wire, source in zip(outputs, given):
                self.sources[wire] = ("same", source)
        elif judge.PRIMITIVES[reference][0] == "cell":
            self.sources[outputs[0]] = ("cell", len(self.cell_inputs))
            self.cell_inputs.append(inputs[0])
        else:
            self.count += rounds
            self.sources[outputs[0]] = ("gate", judge.PRIMITIVES[reference][0], inputs)

    def step(self, inputs, cells):
        """The outputs, and the next cells."""
        known = {}

        def value(wire):
            if wire not in known:
                source = self.sources[wire]
                if source[0] == "input":
                    known[wire] = inputs[source[1]]
                elif source[0] == "cell":
                    known[wire] = cells[source[1]]
                elif source[0] == "same":
                    known[wire] = value(source[1])
                else:
                    known[wire] = GATES[source[1]](*[value(each) for each in source[2]])
            return known[wire]

        return [value(wire) for wire in self.outputs], [value(wire) for wire in self.cell_inputs]


# ---- The text

def lines_of(data):
    """Byte 10 ends a line, and so does the end of the input if the line is not empty."""
    lines = data.split(b"\n")
    return lines if lines[-1] else lines[:-1]


def well_formed(line, inputs):
    return len(line) == inputs and all(chr(byte) in CHARACTERS for byte in line)


def transcript(file, data):
    try:
        judge.figures(file)
    except judge.Refused as refused:
        return f"board {refused.number} {refused.place}\n"
    network = Network(judge.read_file(file))
    cells = ["0"] * len(network.cell_inputs)
    cycle = 0
    text = "kind T\n"
    for line in lines_of(data):
        if not well_formed(line, len(network.inputs)):
            text += "refused 13\n"
        elif (cycle + 1) * len(network.outputs) > TAPE_VALUES or cycle == LAST_CYCLE:
            text += "refused 16\n"
        else:
            outputs, cells = network.step(line.decode(), cells)
            text += f"{cycle} {''.join(outputs) or '-'} {network.count}\n"
            cycle += 1
    return text + f"ended {cycle}\n"


def main(arguments):
    if len(arguments) != 2:
        sys.exit(__doc__)
    file, data = (open(path, "rb").read() for path in arguments)
    print(transcript(file, data), end="")


if __name__ == "__main__":
    sys.setrecursionlimit(100000)
    main(sys.argv[1:])
