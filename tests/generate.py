#!/usr/bin/env python3
"""Bench files from seeds: `bench_file(seed)` gives a file's bytes, the same for the same seed on every machine.

The files of even seeds are accepted. Those of odd seeds are damaged: one after the other they go through the
list of all faults (CASES), each with its own place, and often have a second fault or a bad end as well.
Use: `tests/generate.py SEED > FILE`, `tests/generate.py largest > FILE`.
"""
import random
import sys
from collections import namedtuple

from model import (
    AND, AREAS, BROT, CMPR, COILS, COMP, CONSTANT, DISCRETES, GREATEST_CONSTANT, GREATEST_COUNT, GREATEST_SCANS, HOLDING,
    INPUTS, INPUT_REGISTERS, LEVELS, LIMITS, MBIT, OR, POINTER, RULES, SENS, XOR, Block, Input, Node, first_bit,
    pointer_node, second_number, words_of,
)

HEIGHTS = ("top", "middle", "bottom")
NO_COILS = [0, 0, 0]

# Kinds that share a row of the rules.
ROWS = ((AND, OR, XOR, COMP, BROT), (CMPR,), (MBIT,), (SENS,))


class Dice:
    """Chances from a seed, by `random()` alone: its sequence is promised to stay the same."""

    def __init__(self, seed):
        self.random = random.Random(seed).random

    def below(self, count):
        return int(self.random() * count)

    def between(self, low, high):
        return low + self.below(high - low + 1)

    def pick(self, things):
        return things[self.below(len(things))]

    def chance(self, percent):
        return self.below(100) < percent


def share_of(dice, shares):
    """One of some things, each by its share in a hundred."""
    roll = dice.below(100)
    for share, thing in shares:
        if roll < share:
            return thing
        roll -= share
    raise AssertionError("the shares are a hundred")


# ---- Levels --------------------------------------------------------------------------------------

# A level, and whether it is among the file's words: level 1 may be left out.
Level = namedtuple("Level", "number told")


def level_of(dice, number=None):
    """That level, or any; level 1 mostly left out."""
    number = number or dice.pick([1, 1, 2])
    return Level(number, number != 1 or dice.chance(30))


# ---- Shapes: how large a file is, and its level --------------------------------------------------

Shape = namedtuple("Shape", "sizes count scans level")


def shape_of(dice):
    return share_of(dice, SHAPES)(dice, level_of(dice))


def small(dice, level):
    sizes = {COILS: dice.pick([0, 1, 1, 2, 3, 4]), INPUTS: dice.pick([0, 1, 1, 2, 3]),
             INPUT_REGISTERS: dice.pick([0, 1, 2, 4, 5]), HOLDING: dice.pick([0, 2, 4, 5, 6, 8, 8, 10, 12, 16])}
    return Shape(sizes, dice.between(1, 10), dice.pick([1, 2, 3, 4, 4, 6, 8, 20]), level)


def at_limits(dice, level):
    """One area, or each, at its limit."""
    sizes = small(dice, level).sizes
    for area in dice.pick([(COILS,), (INPUTS,), (INPUT_REGISTERS,), (HOLDING,), AREAS]):
        sizes[area] = LIMITS[area]
    return Shape(sizes, dice.between(1, 5), dice.between(1, 3), level)


def many_blocks(dice, level):
    count = dice.pick([GREATEST_COUNT, GREATEST_COUNT, GREATEST_COUNT - 1])
    return small(dice, level)._replace(count=count, scans=dice.between(1, 2))


def many_scans(dice, level):
    scans = dice.pick([GREATEST_SCANS, GREATEST_SCANS, GREATEST_SCANS - 1])
    return small(dice, level)._replace(count=dice.between(0, 2), scans=scans)


def bare(dice, level):
    """No blocks, or no words in the table, or neither."""
    sizes = dice.pick([small(dice, level).sizes, {area: 0 for area in AREAS}])
    return Shape(sizes, dice.pick([0, 0, 2]), dice.pick([1, 2, GREATEST_SCANS]), level)


def long_blocks(dice, level):
    """Areas wide enough for the greatest lengths, 100 and 255 or 600."""
    wide_ones = [101, 255, 256, 300, 520] if level.number == 1 else [101, 256, 600, 601, 700]
    sizes = {COILS: dice.pick([100, 128]), INPUTS: dice.pick([100, 128]), INPUT_REGISTERS: dice.pick([100, 255, 300]),
             HOLDING: dice.pick(wide_ones)}
    return Shape(sizes, dice.between(1, 6), dice.between(1, 4), level)


# The share of each shape in a hundred.
SHAPES = [(84, small), (5, at_limits), (3, many_blocks), (1, many_scans), (2, bare), (5, long_blocks)]


# ---- Blocks that are accepted --------------------------------------------------------------------


class Plan:
    """A network under way: the areas, the blocks so far, and the few coils that contacts and outputs share."""

    def __init__(self, dice, shape):
        self.dice = dice
        self.sizes = shape.sizes
        self.count = shape.count
        self.scans = shape.scans
        self.level = shape.level
        self.blocks = []
        last = 16 * shape.sizes[COILS]
        self.coils = [dice.pick([1, 16, last, dice.between(1, last)]) for _ in range(4)] if last else []


def plan_of(dice, shape):
    plan = Plan(dice, shape)
    while len(plan.blocks) < plan.count:
        block = (overlapping(plan) if dice.chance(15) else None) or block_for(plan)
        if block is None:
            break
        plan.blocks.append(block)
        if dice.chance(40):
            add_probe(plan, destination_registers(plan, block))
    if dice.chance(75):
        for _ in range(dice.between(1, 4)):
            add_probe(plan, [number for block in plan.blocks for number in destination_registers(plan, block)])
    return plan


def block_for(plan, wanted=None, n=None):
    """A block of the kind and length wanted, or of any, that fits the areas; or None."""
    for _ in range(20):
        kind = wanted or plan.dice.between(1, 8)
        rule = RULES[kind]
        middle = class_for(plan, rule.middle, rule.middle_classes, n or 1)
        top = class_for(plan, rule.top, rule.top_classes, n or 1)
        if middle in rule.top_classes and plan.dice.chance(40):
            top = middle
        if top is not None and middle is not None:
            return place_block(plan, kind, n or length_for(plan, rule, top, middle), top, middle)
    return None


def overlapping(plan):
    """A block on two matrices that share words, with power as a rule; or None."""
    dice = plan.dice
    kind = dice.pick(ROWS[0])
    classes = [class_ for class_ in RULES[kind].middle_classes if plan.sizes[class_] >= 3]
    if not classes:
        return None
    class_ = dice.pick(classes)
    n = dice.between(2, min(dice.pick((4, 4, 20)), plan.sizes[class_] - 1))
    distance = dice.between(1, min(n - 1, plan.sizes[class_] - n))
    low = dice.between(0, plan.sizes[class_] - n - distance)
    nodes = [node_at(plan, n, class_, low), node_at(plan, n, class_, low + distance)]
    top, middle = nodes if dice.chance(50) else reversed(nodes)
    return Block(kind, n, top, middle, [input_for(plan, percent) for percent in (80, 30, 50)], NO_COILS)


def class_for(plan, what, classes, n):
    """A class whose area holds the operand at length n, or None."""
    fitting = [c for c in classes if c == CONSTANT or plan.sizes[c] >= words_of(what, n)]
    return plan.dice.pick(fitting) if fitting else None


def place_block(plan, kind, n, top, middle):
    """A block of that kind and length with its nodes in those classes."""
    top_node, middle_node = nodes_for(plan, RULES[kind], n, top, middle)
    inputs = [input_for(plan, percent) for percent in (50, 30, 30)]
    coils = [coil_for(plan, middle_node, n) for _ in range(3)]
    if plan.coils and plan.dice.chance(25):
        blink(plan, inputs, coils)
    return Block(kind, n, top_node, middle_node, inputs, coils)


def length_for(plan, rule, top, middle):
    longest = rule.longest[plan.level.number]
    greatest = longest
    for what, class_ in ((rule.top, top), (rule.middle, middle)):
        if what != POINTER:
            greatest = min(greatest, plan.sizes[class_] - words_of(what, 1) + 1)
    if greatest == longest and plan.dice.chance(40):
        return greatest
    return min(greatest, plan.dice.pick([1, 1, 2, 2, 2, 3, greatest, greatest, plan.dice.between(1, greatest)]))


def nodes_for(plan, rule, n, top, middle):
    middle_word = word_for(plan, rule.middle, n, middle, None)
    near = middle_word if top == middle else None
    top_word = word_for(plan, rule.top, n, top, near)
    return node_at(plan, n, top, top_word), node_at(plan, n, middle, middle_word)


def word_for(plan, what, n, class_, near):
    """The word, from 0, at which the operand starts; where `near` is another operand's start, often upon it."""
    if class_ == CONSTANT:
        return None
    last = plan.sizes[class_] - words_of(what, n)
    if near is not None and plan.dice.chance(70):
        return min(last, max(0, near + distance_for(plan, what, n)))
    return plan.dice.pick([0, last, plan.dice.between(0, last), plan.dice.between(0, last)])


def distance_for(plan, what, n):
    if what == POINTER:
        return plan.dice.pick([0, plan.dice.between(0, n - 1)])
    return plan.dice.pick([-2, -1, -1, 0, 1, 1, 2])


def node_at(plan, n, class_, word):
    if class_ == CONSTANT:
        return Node(CONSTANT, min(GREATEST_CONSTANT[plan.level.number], pointer_for(plan.dice, n)))
    return Node(class_, 16 * word + 1 if class_ in DISCRETES else word + 1)


def pointer_for(dice, n):
    """A pointer's value: at each edge of a matrix of n words, within it, over it."""
    size = 16 * n
    return dice.pick([0, 0, 1, size - 1, size, size, size + 1, 999, 9600, 65535, dice.below(65536),
                      dice.between(1, size), dice.between(1, size), dice.between(1, size)])


def input_for(plan, always):
    """An input: always by the percentage given, otherwise any of the codes that the areas and blocks allow."""
    if plan.dice.chance(always):
        return Input(1, 0)
    code = plan.dice.pick([0, 2, 2, 3, 3, 4, 5, 6, 7, 7, 8])
    numbers = numbers_for(plan, code)
    return Input(code, plan.dice.pick(numbers)) if numbers else Input(0, 0)


def numbers_for(plan, code):
    """Numbers that a code may have, the first and last among them."""
    if code < 2:
        return [0]
    if code < 4:
        return plan.coils
    if code < 6:
        last = 16 * plan.sizes[INPUTS]
        return [1, last, plan.dice.between(1, last), plan.dice.between(1, last)] if last else []
    last = len(plan.blocks)
    return [last, last, 1, plan.dice.between(1, last)] if last else []


def coil_for(plan, middle, n):
    if not plan.coils or plan.dice.chance(35):
        return 0
    if middle.class_ == COILS and plan.dice.chance(40):
        return middle.number + plan.dice.below(16 * n)
    return plan.dice.pick(plan.coils)


def blink(plan, inputs, coils):
    """Let a block have power in every other scan: its top input is the closed contact of its own top coil."""
    coil = plan.dice.pick(plan.coils)
    inputs[0] = Input(3, coil)
    coils[0] = coil


# ---- Probes: blocks without power that print a register, so that what others wrote is seen ---------

NEVER = [Input(0, 0)] * 3
ALWAYS = [Input(1, 0), Input(0, 0), Input(0, 0)]


def add_probe(plan, numbers):
    """Show a register of those given, or a word of coils that COMP brings into the last register first."""
    if plan.sizes[HOLDING] == 0 or len(plan.blocks) > GREATEST_COUNT - 2:
        return
    shown = Node(HOLDING, plan.dice.pick(numbers or [plan.sizes[HOLDING]]))
    if plan.sizes[COILS] > 0 and (not numbers or plan.dice.chance(20)):
        shown = Node(HOLDING, plan.sizes[HOLDING])
        coils = Node(COILS, 16 * plan.dice.below(plan.sizes[COILS]) + 1)
        plan.blocks.append(Block(COMP, 1, coils, shown, ALWAYS, NO_COILS))
    plan.blocks.append(probe_of(shown))


def probe_of(register):
    """A block without power that prints the register as its pointer."""
    return Block(SENS, 1, register, Node(HOLDING, 1), NEVER, NO_COILS)


def destination_registers(plan, block):
    """Registers of a block's destination: its first, its last and another one."""
    if block.middle.class_ != HOLDING or block.kind in (CMPR, SENS):
        return []
    first, last = block.middle.number, block.middle.number + block.n - 1
    return [first, last, plan.dice.between(first, last)]


# ---- The image -----------------------------------------------------------------------------------


def image_for(plan):
    areas = {area: [pattern(plan.dice) for _ in range(plan.sizes[area])] for area in AREAS}
    for block in plan.blocks:
        if block.kind == CMPR and plan.dice.chance(85):
            liken(plan.dice, areas, block)
    for block in plan.blocks:
        set_pointer(plan.dice, areas, block)
    return areas


def pattern(dice):
    """A word of the image: often at random, else one with few or all bits."""
    return dice.pick([0, 65535, dice.pick([1, 32768, 32769]), 1 << dice.below(16), dice.below(18)] + [dice.below(65536)] * 5)


def liken(dice, areas, block):
    """Make CMPR's matrix equal to its source but for a few bits, often the last one."""
    source = first_bit(block.top.class_, block.top.number) // 16
    second = second_number(block) - 1
    words = areas[block.top.class_][source : source + block.n]
    for _ in range(dice.pick([0, 1, 1, 2, 3])):
        position = dice.pick([1, 16 * block.n, 16 * block.n, dice.between(1, 16 * block.n)])
        words[(position - 1) // 16] ^= 1 << (16 - position) % 16
    areas[HOLDING][second : second + block.n] = words


def set_pointer(dice, areas, block):
    """Give a pointer its first value; in its own matrix often one with bit 1, which a reset would clear."""
    node = pointer_node(block)
    if node is None or node.class_ == CONSTANT:
        return
    areas[node.class_][node.number - 1] = pointer_for(dice, block.n)
    if own_matrix(block) and dice.chance(30):
        areas[node.class_][node.number - 1] = dice.pick([65535, 32768])


def own_matrix(block):
    """Whether MBIT's or SENS's pointer stands in the block's matrix."""
    return block.kind != CMPR and block.top.class_ == block.middle.class_ and 0 <= block.top.number - block.middle.number < block.n


# ---- A file's words, each with a label that says what stands there, so that a fault can be put at any of them ----


class File:
    """A bench file's words; `labels` names each one and the block it belongs to (0 for none)."""

    def __init__(self, plan, areas):
        self.plan = plan
        self.words = []
        self.labels = []
        self.put_all(plan, areas)

    def put(self, label, word, k=0):
        self.words.append(word)
        self.labels.append((label, k))

    def put_all(self, plan, areas):
        self.put("areas", 5 if plan.level.told else 4)
        for area in AREAS:
            self.put("size %d" % area, plan.sizes[area])
        if plan.level.told:
            self.put("level", plan.level.number)
        self.put("blocks", len(plan.blocks))
        for k, block in enumerate(plan.blocks, 1):
            self.put_block(block, k)
        self.put("image", sum(plan.sizes.values()))
        for area in AREAS:
            for word in areas[area]:
                self.put("image word", word)
        self.put("run", 1)
        self.put("scans", plan.scans)

    def put_block(self, block, k):
        self.put("kind", block.kind, k)
        self.put("n", block.n, k)
        for name, node in zip(("top", "middle"), (block.top, block.middle)):
            self.put(name + " class", node.class_, k)
            self.put(name + " number", node.number, k)
        for name, given in zip(HEIGHTS, block.inputs):
            self.put(name + " code", given.code, k)
            self.put(name + " input", given.number, k)
        for name, coil in zip(HEIGHTS, block.coils):
            self.put(name + " coil", coil, k)

    def places(self, label, k=None):
        """The places, from 0, of the words with that label, in any block or in block k."""
        return [i for i, (name, block) in enumerate(self.labels) if name == label and k in (None, block)]

    def data(self):
        return b"".join(word.to_bytes(2, "big") for word in self.words)


def file_for(plan):
    return File(plan, image_for(plan))


# ---- Faults --------------------------------------------------------------------------------------

# A fault: the label of the word it spoils (* is any of the heights), the kinds of block it belongs to (none where any
# will do), the class or code to put before a number (None to leave it), what the word becomes: a number, or a
# function of Around; and the level of the file (None where any will do).
Case = namedtuple("Case", "label kinds before word level", defaults=(None,))

# What a word may depend on: the number of blocks and of the table's words; the block's number k; the last right number
# and the area's last reference, for the operand or contact in question; the last coil.
Around = namedtuple("Around", "blocks total k last end coils")


def cases():
    """All faults, mixed; those outside the nodes stand there more than once, as they are few."""
    found = section_cases() + input_cases() * 2
    for kinds in ROWS:
        found += node_cases(kinds)
        for level in LEVELS:
            found += length_cases(kinds, level) + constant_cases(kinds, level)
    dice = Dice(0)
    return sorted(found, key=lambda case: dice.random())


def section_cases():
    """Faults of the counts, the sizes and the scans, and of words that no kind stands behind."""
    words = {"areas": [0, 3, 4, 5, 6, 6, 65535], "level": [0, 0, 0, 1, 2, 3, 3, 3, 4, 65535],
             "run": [0, 0, 2, 2, 2, 65535], "kind": [0, 0, 0, 9, 9, 9, 10, 65535],
             "scans": [0, 0, 0, 0, 1001, 1001, 1001, 1001, 65535],
             "blocks": [128, 129, 129, 129, 65535, lambda at: at.blocks + 1, lambda at: at.blocks - 1],
             "image": [lambda at: at.total + 1, lambda at: at.total - 1] * 3 + [0, 65535]}
    for area in AREAS:
        words["size %d" % area] = [LIMITS[area] + 1] * 5 + [LIMITS[area], 65535]
    before_level = [Case("size %d" % HOLDING, (), None, LIMITS[HOLDING] + 1, 2)] * 6
    return [Case(label, (), None, word) for label in sorted(words) for word in words[label]] + before_level


def length_cases(kinds, level):
    """Faults of a block's length at a level, for each kind of a row of the rules, and right lengths that are long."""
    longest = RULES[kinds[0]].longest[level]
    lengths = [0, longest] + [longest + 1] * 3 + [255, 600, 65535]
    return [Case("n", (kind,), None, n, level) for kind in kinds for n in lengths]


def constant_cases(kinds, level):
    """The greatest constant at a level, and constants past it, where a row of the rules takes one."""
    if CONSTANT not in RULES[kinds[0]].top_classes:
        return []
    greatest = GREATEST_CONSTANT[level]
    return [Case("top number", kinds, CONSTANT, word, level) for word in (greatest, greatest + 1, greatest + 1, 1000, 65535)]


def node_cases(kinds):
    """Faults of a block's classes and numbers, for kinds that share a row of the rules."""
    rule = RULES[kinds[0]]
    found = []
    for name, classes in (("top", rule.top_classes), ("middle", rule.middle_classes)):
        refused = [class_ for class_ in (0, 1, 3, 4, 9, 2, 65535) if class_ not in classes]
        found += [Case(name + " class", kinds, None, class_) for class_ in refused] * 2
        areas = [class_ for class_ in classes if class_ != CONSTANT]
        found += [Case(name + " number", kinds, class_, word) for class_ in areas for word in bad_numbers(class_)]
    return found


def bad_numbers(class_):
    """Numbers that are wrong in a class, and the last right one."""
    if class_ in DISCRETES:
        return [0, 2, 16, last_right, lambda at: at.last + 1, lambda at: at.last + 16, lambda at: at.end + 1]
    return [0, last_right, lambda at: at.last + 1, lambda at: at.last + 1, lambda at: at.end + 1, 65535]


def last_right(at):
    return at.last


def input_cases():
    """Faults of the codes, of the numbers behind them and of the coils."""
    codes = [Case("* code", (), None, word) for word in (9, 9, 10, 65535)]
    numbers = [Case("* input", (), code, word) for code in range(9) for word in bad_inputs(code)]
    words = [lambda at: at.coils, lambda at: at.coils + 1, lambda at: at.coils + 1, lambda at: at.coils + 1, 65535]
    return codes + numbers + [Case("* coil", (), None, word) for word in words * 2]


def bad_inputs(code):
    if code in (0, 1):
        return [1, 65535]
    if code in (2, 3, 4, 5):
        return [0, last_right, lambda at: at.last + 1, 65535]
    return [0, lambda at: at.k, lambda at: at.k, lambda at: at.k - 1, 65535]


CASES = cases()


def spoil(dice, file, case, k=None):
    """Put a case's fault into the file, in block k or, without one, where it fits; gives its place."""
    label = case.label.replace("*", dice.pick(HEIGHTS))
    i = dice.pick(file.places(label, k) or file.places(label) or file.places("run"))
    k = file.labels[i][1]
    if case.before is not None and k > 0:
        file.words[i - 1] = case.before
    at = around(file, case, k)
    file.words[i] = max(0, min(65535, case.word(at) if callable(case.word) else case.word))
    return i


def around(file, case, k):
    sizes = file.plan.sizes
    last, end = reach(file.plan, case, k) if k > 0 and case.before is not None else (0, 0)
    return Around(len(file.plan.blocks), sum(sizes.values()), k, last, end, 16 * sizes[COILS])


def reach(plan, case, k):
    """The last right number and the area's last reference, for the operand or the contact of a case."""
    if case.label.endswith(" input"):
        last = 16 * plan.sizes[COILS if case.before in (2, 3) else INPUTS]
        return last, last
    block = plan.blocks[k - 1]
    if case.before == CONSTANT:
        return 0, 0
    rule = RULES[block.kind]
    size = plan.sizes[case.before]
    last = size - words_of(rule.top if case.label.startswith("top") else rule.middle, block.n)
    return (16 * last + 1, 16 * size) if case.before in DISCRETES else (last + 1, size)


# ---- Damage: a case's fault, and what else is done to the words; each way takes the place of the first fault ----


def alone(dice, file, i):
    pass


def anywhere(dice, file, i):
    """A second fault anywhere."""
    spoil(dice, file, dice.pick(CASES))


def in_block(dice, file, i):
    """A second fault in the same block."""
    k = file.labels[i][1]
    kind = file.plan.blocks[k - 1].kind if k > 0 else None
    spoil(dice, file, dice.pick([case for case in CASES if case.kinds == () or kind in case.kinds]), k)


def beside(dice, file, i):
    """An unlikely word behind the fault."""
    if i + 1 < len(file.words):
        file.words[i + 1] = dice.pick([0, 0, 65535])


# How the end of a damaged file is made; each way takes the place of the first fault.


def keep(dice, data, i):
    return data


def cut_later(dice, data, i):
    """End the file soon after the fault."""
    return data[: 2 * (i + 1) + dice.pick([0, 1, 2, 3, 4, 5, dice.below(32)])]


def append(dice, data, i):
    """Let one byte, one word or more stand after the run."""
    return data + bytes([dice.below(256)]) * dice.pick([1, 1, 2, 2, 3, 4, 30, 3000, 140000])


# The share of each way in a hundred.
WAYS = [(38, (alone, keep)), (8, (anywhere, keep)), (10, (in_block, keep)), (12, (beside, keep)),
        (18, (alone, cut_later)), (14, (alone, append))]


def damaged(dice, case):
    """A file with the fault of a case, and perhaps more."""
    long = case.label == "n" and 0 < case.word < 65535 and dice.chance(70)
    level = Level(dice.pick(LEVELS), True) if case.label == "level" else level_of(dice, case.level)
    plan = plan_of(dice, wide(dice, level) if long else damaged_shape(dice, level))
    k = put_kind(plan, dice.pick(case.kinds), case.word if long else None) if case.kinds else None
    file = file_for(plan)
    more, end = share_of(dice, WAYS)
    i = spoil(dice, file, case, k)
    more(dice, file, i)
    return end(dice, file.data(), i)


def damaged_shape(dice, level):
    """Small, no area of 0 as a rule, so that every kind has its place."""
    shape = small(dice, level)
    if dice.chance(85):
        shape = shape._replace(sizes={area: max(2, shape.sizes[area]) for area in AREAS})
    return shape


def wide(dice, level):
    """Areas that hold the lengths which are refused, so that nothing else is wrong with them."""
    shape = long_blocks(dice, level)
    return shape._replace(sizes={**shape.sizes, COILS: 128, HOLDING: 700})


def put_kind(plan, kind, n):
    """Let some block be of that kind, and of length n where one is given, where it fits; gives its number."""
    k = plan.dice.between(1, max(1, len(plan.blocks)))
    later = plan.blocks[k:]
    del plan.blocks[k - 1 :]
    block = block_for(plan, kind, n) or block_for(plan)
    plan.blocks += ([block] if block else []) + later
    return k


def ragged(dice):
    """A file with a bad end alone, or with a word changed at random."""
    file = file_for(plan_of(dice, shape_of(dice) if dice.chance(10) else small(dice, level_of(dice))))
    data = file.data()
    roll = dice.below(100)
    if roll < 55:
        label = dice.pick(sorted(set(label for label, _ in file.labels)))
        return data[: 2 * dice.pick(file.places(label)) + dice.below(2)]
    if roll < 85:
        return append(dice, data, 0)
    file.words[dice.below(len(file.words))] = dice.pick([dice.below(20), dice.below(65536)])
    return file.data()


# ---- The files -----------------------------------------------------------------------------------


def bench_file(seed):
    dice = Dice(seed)
    if seed % 2 == 0:
        return file_for(plan_of(dice, shape_of(dice))).data()
    index = seed // 2
    if index % 6 == 5:
        return ragged(dice)
    return damaged(dice, CASES[(index - index // 6) % len(CASES)])


def largest_file():
    """As much of everything as the documents allow."""
    return file_for(plan_of(Dice(1), Shape(dict(LIMITS), GREATEST_COUNT, GREATEST_SCANS, Level(2, True)))).data()


if __name__ == "__main__":
    wanted = sys.argv[1]
    sys.stdout.buffer.write(largest_file() if wanted == "largest" else bench_file(int(wanted)))
