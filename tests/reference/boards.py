"""Writing board files by hand: records, modules, boards, and edits of their bytes."""

from dataclasses import dataclass

LOW, HIGH, BUF, NOT, AND, OR, XOR, NAND, NOR, XNOR, PICK, CELL = range(12)
INPUTS_OF = {LOW: 0, HIGH: 0, BUF: 1, NOT: 1, AND: 2, OR: 2, XOR: 2, NAND: 2, NOR: 2, XNOR: 2, PICK: 3, CELL: 1}


def sub(number):
    """The reference of a module."""
    return 256 + number


# ---- Records

def two_bytes(number):
    return number.to_bytes(2, "little")


def record(kind, body):
    return two_bytes(len(body)) + two_bytes(kind) + bytes(body)


def use(reference, inputs=(), outputs=()):
    counts = [len(inputs), len(outputs)]
    return record(3, [*two_bytes(reference), *counts, *inputs, *outputs])


def outputs_in(use_record):
    return use_record[7]


def module_record(inputs, wires, occurrences, outputs=(), state=()):
    counts = [inputs, len(outputs), wires, occurrences, len(state)]
    return record(2, [*counts, *outputs, *state])


def module(inputs=0, uses=(), outputs=(), state=(), wires=None):
    """A module with its occurrences; it has as many wires as are driven unless wires says otherwise."""
    if wires is None:
        wires = inputs + sum(outputs_in(each) for each in uses)
    return module_record(inputs, wires, len(uses), outputs, state) + b"".join(uses)


def board(*modules):
    return record(1, two_bytes(len(modules))) + b"".join(modules)


EMPTY = module()


# ---- Where things stand in a well-formed file

@dataclass
class Layout:
    modules: list
    occurrences: list
    end: int

    def all_records(self):
        starts = [0]
        for place, inner in zip(self.modules, self.occurrences):
            starts += [place, *inner]
        return starts


def record_end(data, start):
    return start + 4 + int.from_bytes(data[start:start + 2], "little")


def layout(data):
    """The first byte of each module and of each occurrence."""
    at = record_end(data, 0)
    found = Layout([], [], at)
    for _ in range(int.from_bytes(data[4:6], "little")):
        found.modules.append(at)
        count = data[at + 7]
        at = record_end(data, at)
        inner = []
        for _ in range(count):
            inner.append(at)
            at = record_end(data, at)
        found.occurrences.append(inner)
    found.end = at
    return found


def bytes_of_record(data, start):
    return data[start:record_end(data, start)]


# Offsets within a module record and an occurrence record.
AT_KIND, AT_I, AT_O, AT_W, AT_N, AT_S, AT_LISTS = 2, 4, 5, 6, 7, 8, 9
AT_REFERENCE, AT_A, AT_B, AT_PINS = 4, 6, 7, 8


# ---- Edits

@dataclass(frozen=True)
class Edit:
    """At a byte of the base, drop some bytes and put a block there, so many times over."""

    at: int
    drop: int
    block: bytes = b""
    times: int = 1

    def ends(self):
        return self.at + self.drop


def apply_edits(base, edits):
    made, at = b"", 0
    for edit in edits:
        if edit.at < at or edit.ends() > len(base):
            raise ValueError(f"edits out of order or out of range: {edits}")
        made += base[at:edit.at] + edit.block * edit.times
        at = edit.ends()
    return made + base[at:]


def put(at, *values):
    """Overwrites bytes."""
    return Edit(at, len(values), bytes(values))


def put_two(at, number):
    return Edit(at, 2, two_bytes(number))


def insert(at, block, times=1):
    return Edit(at, 0, bytes(block), times)


def delete(at, count=1):
    return Edit(at, count)


def cut_to(base, length):
    return Edit(length, len(base) - length)


def append(base, block, times=1):
    return insert(len(base), block, times)


def exchange(base, first, second):
    """Exchanges two records, by where they start."""
    one, other = bytes_of_record(base, first), bytes_of_record(base, second)
    return [Edit(first, len(one), other), Edit(second, len(other), one)]
