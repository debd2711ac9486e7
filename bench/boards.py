#!/usr/bin/env python3
"""Writes the boards of the benchmark: small.bin, medium.bin and large.bin.

    python3 bench/boards.py FOLDER

Nothing depends on the machine or the time, so the files are always the same.
The small board is an interlock drawn by hand. The other two are trees of modules that are drawn at random.
"""

import sys
from dataclasses import dataclass
from pathlib import Path

sys.path.insert(0, str(Path(__file__).resolve().parent.parent / "tests" / "reference"))

import boards
import judge
from boards import AND, BUF, CELL, HIGH, INPUTS_OF, LOW, NAND, NOR, NOT, OR, PICK, XNOR, XOR, sub
from generator import Random


class Draft:
    """A module in the making: each gate, cell or child drives the wires that come next."""

    def __init__(self, inputs):
        self.inputs = inputs
        self.driven = inputs
        self.uses = []
        self.holding = []

    def put(self, reference, ins, outs, holds):
        wires = list(range(self.driven, self.driven + outs))
        if holds:
            self.holding.append(len(self.uses))
        self.uses.append((reference, list(ins), wires))
        self.driven += outs
        return wires

    def gate(self, reference, *ins):
        return self.put(reference, ins, 1, holds=False)[0]

    def cell(self):
        """A cell whose input wire is said later, by store."""
        return self.put(CELL, [], 1, holds=True)[0]

    def store(self, cell, wire):
        for reference, ins, outs in self.uses:
            if reference == CELL and outs == [cell]:
                ins.append(wire)

    def child(self, number, ins, outs, holds=True):
        return self.put(sub(number), ins, outs, holds)

    def module(self, outputs, state=None):
        uses = [boards.use(*each) for each in self.uses]
        return boards.module(self.inputs, uses, outputs, self.holding if state is None else state)


# ---- The small board: may the engine turn?

LATCH, COUNTER, COUNTER_BIT, STEADY = 1, 2, 3, 4


def small_top():
    """Seat, clutch, brake, lever, key, reset."""
    top = Draft(6)
    switches = [top.child(STEADY, [wire], 1)[0] for wire in range(3)]
    seat, clutch, brake = switches
    lever, key, reset = 3, 4, 5
    held = top.gate(AND, clutch, brake)
    lever_off = top.gate(NOT, lever)
    away = top.gate(NOT, seat)
    waiting = top.gate(AND, away, key)
    *ticks, full = top.child(COUNTER, [waiting, reset], 5)
    long_away = top.gate(OR, full, top.gate(AND, ticks[3], ticks[2]))
    fault = top.child(LATCH, [top.gate(AND, long_away, lever), reset], 1)[0]
    ready = top.gate(AND, held, lever_off)
    start = top.gate(AND, top.gate(AND, ready, seat), key)
    stop = top.gate(OR, fault, top.gate(NOT, key))
    engine = top.child(LATCH, [start, stop], 1)[0]
    shaft = top.gate(AND, engine, top.gate(AND, lever, seat))
    odd = top.gate(XOR, top.gate(XOR, seat, clutch), top.gate(XNOR, brake, lever))
    lamp = top.gate(PICK, fault, ticks[0], top.gate(NOR, engine, odd))
    horn = top.gate(NAND, top.gate(BUF, key), top.gate(NOT, waiting))
    return top.module([engine, shaft, lamp, horn])


def latch():
    """Set, reset: reset wins."""
    draft = Draft(2)
    held = draft.cell()
    wanted = draft.gate(OR, held, 0)
    after = draft.gate(AND, wanted, draft.gate(NOT, 1))
    draft.store(held, after)
    return draft.module([after])


def counter():
    """Count, clear: four bits, and whether all are set."""
    draft = Draft(2)
    carry, bits = 0, []
    for _ in range(4):
        bit, carry = draft.child(COUNTER_BIT, [carry, 1], 2)
        bits.append(bit)
    return draft.module([*bits, carry])


def counter_bit():
    """Carry, clear: the bit, and the carry out of it."""
    draft = Draft(2)
    bit = draft.cell()
    turned = draft.gate(XOR, bit, 0)
    zero = draft.gate(LOW)
    draft.store(bit, draft.gate(PICK, 1, zero, turned))
    return draft.module([bit, draft.gate(AND, bit, 0)])


def steady():
    """A switch that is the same for three cycles is believed."""
    draft = Draft(1)
    last, before, believed = draft.cell(), draft.cell(), draft.cell()
    draft.store(last, 0)
    draft.store(before, last)
    same = draft.gate(AND, draft.gate(XNOR, 0, last), draft.gate(XNOR, last, before))
    now = draft.gate(PICK, same, 0, believed)
    draft.store(believed, now)
    return draft.module([now])


def small():
    return boards.board(small_top(), latch(), counter(), counter_bit(), steady())


# ---- Trees of modules

@dataclass
class Tree:
    """How many modules each level has to choose from, and what a module holds."""

    modules: list
    children: int
    gates: int
    cells: int
    cells_of_leaf: int
    pins: int


MEDIUM = Tree(modules=[1, 3, 5, 7], children=3, gates=50, cells=3, cells_of_leaf=3, pins=6)
LARGE = Tree(modules=[1, 2, 4, 5, 6, 8, 10], children=3, gates=55, cells=3, cells_of_leaf=4, pins=6)

COMMON = [AND, OR, NAND, NOR, NOT, AND, OR, NAND, NOR, PICK]
RARE = [XOR, XNOR, BUF, XOR, XNOR, LOW, HIGH]


class TreeModule:
    """Draws one module of a tree. Wires that nothing reads yet are read first."""

    def __init__(self, random, tree, below):
        self.random = random
        self.tree = tree
        self.below = below
        self.draft = Draft(tree.pins)
        self.unread = list(range(tree.pins))

    def some_wire(self):
        if self.unread and self.random.chance(60):
            return self.unread.pop(self.random.below(len(self.unread)))
        return self.random.below(self.draft.driven)

    def add_gate(self):
        reference = self.random.pick(COMMON if self.random.chance(85) else RARE)
        ins = [self.some_wire() for _ in range(INPUTS_OF[reference])]
        self.unread.append(self.draft.gate(reference, *ins))

    def add_cell(self):
        self.unread.append(self.draft.cell())

    def add_child(self):
        ins = [self.some_wire() for _ in range(self.tree.pins)]
        self.unread += self.draft.child(self.random.pick(self.below), ins, self.tree.pins)

    def close_cells(self):
        for reference, _, outs in self.draft.uses:
            if reference == CELL:
                self.draft.store(outs[0], self.some_wire())

    def draw(self):
        tree, leaf = self.tree, not self.below
        kinds = [self.add_gate] * tree.gates
        kinds += [self.add_cell] * (tree.cells_of_leaf if leaf else tree.cells)
        kinds += [self.add_child] * (0 if leaf else tree.children)
        for add in self.random.shuffled(kinds):
            add()
        self.close_cells()
        outputs = [self.some_wire() for _ in range(self.tree.pins)]
        return self.draft.module(outputs, self.random.shuffled(self.draft.holding))


def numbers_by_level(tree):
    levels, first = [], 0
    for count in tree.modules:
        levels.append(list(range(first, first + count)))
        first += count
    return levels


def draw_tree(tree, seed):
    random, levels, modules = Random(seed), numbers_by_level(tree), []
    for level, below in zip(levels, levels[1:] + [[]]):
        modules += [TreeModule(random, tree, below).draw() for _ in level]
    return boards.board(*modules)


# ---- All three

def flat_gates(data):
    """The gates of the board with all its modules drawn out."""
    modules, counts = judge.read_file(data), {}
    for number in reversed(range(len(modules))):
        references = [each.reference for each in modules[number].occurrences]
        counts[number] = sum(
            counts[each - 256] if each >= 256 else each != CELL for each in references
        )
    return counts[0]


def write(folder, name, data):
    number, place = judge.judge(data)
    if number:
        raise SystemExit(f"{name}: refused by {number} at {place}")
    top = judge.figures(data)
    (folder / f"{name}.bin").write_bytes(data)
    print(
        f"{name}: {len(data)} bytes, {flat_gates(data)} gates, {top.cells} cells, "
        f"{top.places} places, {top.modules} modules, depth {top.depth}"
    )


def main(arguments):
    if len(arguments) != 2:
        print("usage: boards.py FOLDER", file=sys.stderr)
        return 2
    folder = Path(arguments[1])
    folder.mkdir(parents=True, exist_ok=True)
    write(folder, "small", small())
    write(folder, "medium", draw_tree(MEDIUM, 1))
    write(folder, "large", draw_tree(LARGE, 2))
    return 0


if __name__ == "__main__":
    sys.exit(main(sys.argv))
