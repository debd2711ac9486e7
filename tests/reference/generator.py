"""Random boards that are accepted, and random mutations of accepted boards."""

import boards
import judge
from boards import CELL, HIGH, INPUTS_OF, LOW, sub


class Random:
    """A xorshift generator, so that the cases are the same everywhere and always."""

    def __init__(self, seed):
        self.state = (seed * 0x9E3779B97F4A7C15 + 0x1234567) % 2**64 or 1
        for _ in range(8):
            self.next()

    def next(self):
        x = self.state
        x ^= (x << 13) % 2**64
        x ^= x >> 7
        x ^= (x << 17) % 2**64
        self.state = x
        return x >> 16

    def below(self, limit):
        return self.next() % limit

    def between(self, low, high):
        return low + self.below(high - low + 1)

    def chance(self, percent):
        return self.below(100) < percent

    def pick(self, items):
        return items[self.below(len(items))]

    def shuffled(self, items):
        left, out = list(items), []
        while left:
            out.append(left.pop(self.below(len(left))))
        return out


# ---- Accepted boards

class ModuleMaker:
    """Gathers occurrences for one module. Wires have provisional numbers, in the order in which
    they are driven, until finish() gives them their own."""

    def __init__(self, random, number, parts, inputs):
        self.random = random
        self.number = number
        self.parts = parts
        self.inputs = inputs
        self.driven = inputs
        self.chosen = []

    def fits(self, part):
        if self.driven + part.outputs > judge.MAX_WIRES or part.depth >= judge.MAX_DEPTH:
            return False
        if part.inputs > 0 and self.driven == 0 and (part.through or part.outputs == 0):
            return False
        uses = [used for _, used, _ in self.chosen] + [part]
        places = len(uses) + sum(used.places for used in uses)
        return places <= judge.MAX_PLACES and sum(used.cells for used in uses) <= judge.MAX_CELLS

    def choose_reference(self, modules_percent, cells_percent):
        if self.parts and self.random.chance(modules_percent):
            return sub(self.random.pick(sorted(self.parts)))
        if self.random.chance(cells_percent):
            return CELL
        return self.random.below(CELL)

    def part(self, reference):
        return judge.part_of(reference, self.number, self.parts)

    def add(self, reference):
        part = self.part(reference)
        if not self.fits(part):
            reference = self.random.pick([LOW, HIGH, CELL])
            part = self.part(reference)
            if not self.fits(part):
                return
        through = {pin: self.random.below(self.driven) for pin in part.through}
        self.driven += part.outputs
        self.chosen.append((reference, part, through))

    def finish(self, outputs_wanted):
        own = list(range(self.inputs))
        numbers = own + self.random.shuffled(range(self.inputs, self.driven))
        uses, parts, at = [], [], self.inputs
        for reference, part, through in self.chosen:
            pins = [through.get(pin, None) for pin in range(part.inputs)]
            wires = [self.random.below(self.driven) if pin is None else pin for pin in pins]
            driven_here = range(at, at + part.outputs)
            at += part.outputs
            uses.append(boards.use(reference, [numbers[w] for w in wires], [numbers[w] for w in driven_here]))
            parts.append(part)
        holding = [index for index, part in enumerate(parts) if part.cells > 0]
        outputs = [self.random.below(self.driven) for _ in range(outputs_wanted)] if self.driven else []
        return boards.module(
            inputs=self.inputs, uses=uses, outputs=outputs, state=self.random.shuffled(holding), wires=self.driven
        )


def random_module(random, number, parts, most_pins, occurrences):
    maker = ModuleMaker(random, number, parts, random.below(most_pins + 1))
    modules_percent, cells_percent = random.pick([20, 40, 70]), random.pick([10, 25, 60])
    for _ in range(random.between(*occurrences)):
        maker.add(maker.choose_reference(modules_percent, cells_percent))
    return maker.finish(random.below(most_pins + 1))


def part_made_by(number, data, parts):
    """The part that a module makes, asked of the judge in a board of its own."""
    reader = judge.Reader(data)
    read = judge.read_module(reader)
    used = [judge.part_of(each.reference, number, parts) for each in read.occurrences]
    return judge.check_module(read, used)


def random_board(random, modules, most_pins, occurrences):
    """An accepted board of so many modules; occurrences is the least and the greatest number in one."""
    made, parts = [], {}
    for number in reversed(range(modules)):
        data = random_module(random, number, parts, most_pins, occurrences)
        parts[number] = part_made_by(number, data, parts)
        made.insert(0, data)
    return boards.board(*made)


def filler_module(size):
    """An accepted module of exactly so many bytes, 18 to 585: lows, and repeated outputs."""
    count, repeated = divmod(size - 9, 9)
    return boards.module(uses=[boards.use(LOW, [], [wire]) for wire in range(count)], outputs=[0] * repeated)


# ---- Mutations: each takes an accepted file and gives edits, or None where it does not apply

def any_byte(random, data, places):
    return [boards.put(random.below(len(data)), random.below(256))]


def byte_step(random, data, places):
    at = random.below(len(data))
    return [boards.put(at, (data[at] + random.pick([1, 255])) % 256)]


def count_step(random, data, places):
    at = random.pick(places.modules) + random.pick([boards.AT_I, boards.AT_O, boards.AT_W, boards.AT_N, boards.AT_S])
    return [boards.put(at, (data[at] + random.pick([1, 255])) % 256)]


def pick_occurrence(random, places):
    """A module's number and the start of one of its occurrences."""
    filled = [number for number, inner in enumerate(places.occurrences) if inner]
    if not filled:
        return None
    number = random.pick(filled)
    return number, random.pick(places.occurrences[number])


def rewire(random, data, places):
    found = pick_occurrence(random, places)
    if found is None:
        return None
    number, start = found
    pins = data[start + boards.AT_A] + data[start + boards.AT_B]
    wires = data[places.modules[number] + boards.AT_W]
    if pins == 0:
        return None
    return [boards.put(start + boards.AT_PINS + random.below(pins), random.below(wires + 1))]


def refer_otherwise(random, data, places):
    found = pick_occurrence(random, places)
    if found is None:
        return None
    _, start = found
    same_pins = [reference for reference, count in INPUTS_OF.items() if count == data[start + boards.AT_A]]
    later = [sub(number) for number in range(len(places.modules) + 1)]
    reference = random.pick(same_pins or later) if random.chance(60) else random.pick(later)
    return [boards.put_two(start + boards.AT_REFERENCE, reference)]


def lists_byte(random, data, places):
    """Another output wire or state entry."""
    number = random.below(len(places.modules))
    start = places.modules[number]
    outputs, states = data[start + boards.AT_O], data[start + boards.AT_S]
    if outputs + states == 0:
        return None
    which = random.below(outputs + states)
    limit = data[start + boards.AT_W] if which < outputs else data[start + boards.AT_N]
    return [boards.put(start + boards.AT_LISTS + which, random.below(limit + 1))]


def exchange_occurrences(random, data, places):
    many = [inner for inner in places.occurrences if len(inner) > 1]
    if not many:
        return None
    inner = random.pick(many)
    first = random.below(len(inner) - 1)
    second = random.between(first + 1, min(first + 3, len(inner) - 1))
    return boards.exchange(data, inner[first], inner[second])


def drop_occurrence(random, data, places):
    """Leaves an occurrence out, and counts it out half of the time."""
    found = pick_occurrence(random, places)
    if found is None:
        return None
    number, start = found
    edits = [boards.delete(start, boards.record_end(data, start) - start)]
    if random.chance(50):
        count = places.modules[number] + boards.AT_N
        edits.insert(0, boards.put(count, data[count] - 1))
    return edits


def double_occurrence(random, data, places):
    """Writes an occurrence twice, and counts it most of the time."""
    found = pick_occurrence(random, places)
    if found is None:
        return None
    number, start = found
    edits = [boards.insert(start, boards.bytes_of_record(data, start))]
    if random.chance(75):
        count = places.modules[number] + boards.AT_N
        edits.insert(0, boards.put(count, data[count] + 1))
    return edits


def cut_or_append(random, data, places):
    if random.chance(50):
        return [boards.cut_to(data, random.below(len(data)))]
    return [boards.append(data, [random.below(256) for _ in range(random.between(1, 9))])]


def shift_bytes(random, data, places):
    at = random.below(len(data))
    if random.chance(50):
        return [boards.delete(at)]
    return [boards.insert(at, [random.below(256)])]


# The mutations that keep the records whole come more often: most of the rules lie behind them.
MUTATIONS = (
    [any_byte] * 2 + [byte_step] * 2 + [count_step] * 3 + [rewire] * 8 + [refer_otherwise] * 4 + [lists_byte] * 4
    + [exchange_occurrences] * 4 + [drop_occurrence] + [double_occurrence] + [cut_or_append] + [shift_bytes]
)


def random_mutation(random, data):
    """Edits that change the file in one way."""
    places = boards.layout(data)
    while True:
        edits = random.pick(MUTATIONS)(random, data, places)
        if edits is not None and boards.apply_edits(data, edits) != data:
            return edits
