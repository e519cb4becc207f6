#!/usr/bin/env python3
"""Documents 01 and 02 a second time: what the bench must print for a file, told with lists of bits.

Use: `tests/model.py < FILE`, or `answer(data)` on the file's bytes.
Each function stands under the sentence it says, "02" before those of document 02. `open:` marks a point that the
documents leave open.
"""
import sys
from collections import namedtuple

# "Kinds 1 to 8 in the order named above." "the eight blocks AND, OR, XOR, COMP, CMPR, MBIT, SENS, BROT"
AND, OR, XOR, COMP, CMPR, MBIT, SENS, BROT = 1, 2, 3, 4, 5, 6, 7, 8

# "four areas in this order: coils (0xxxx), discrete inputs (1xxxx), input registers (3xxxx), holding registers (4xxxx)"
COILS, INPUTS, INPUT_REGISTERS, HOLDING = 0, 1, 3, 4
AREAS = (COILS, INPUTS, INPUT_REGISTERS, HOLDING)

# "Discretes are packed 16 to a word."
DISCRETES = (COILS, INPUTS)

# "Limits in words: 128, 128, 512, 9999."
LIMITS = {COILS: 128, INPUTS: 128, INPUT_REGISTERS: 512, HOLDING: 9999}

# 02: "the fifth word being the level, 1 or 2; count 4 means Level 1"
LEVELS = (1, 2)

# "9 a constant whose number is its value, 0 to 999"; 02: "constants to 9600"
CONSTANT = 9
GREATEST_CONSTANT = {1: 999, 2: 9600}

# "Blocks: count 0 to 128"
GREATEST_COUNT = 128

# "then scans, 1 to 1000"
GREATEST_SCANS = 1000

# "n 1 to 100", "1 to 255"; 02: "document 002 allows MBIT and SENS 600 registers"
LONGEST = {1: 100, 2: 100}
LONGEST_SINGLE = {1: 255, 2: 600}

# "The rules for the eight kinds stand in one constant table, and every check reads them there"
MATRIX, POINTER, POINTER_AND_MATRIX = "matrix", "pointer", "pointer and matrix"
Rule = namedtuple("Rule", "top top_classes middle middle_classes longest")
LOGIC_RULE = Rule(MATRIX, (0, 1, 3, 4), MATRIX, (0, 4), LONGEST)
RULES = {
    AND: LOGIC_RULE,
    OR: LOGIC_RULE,
    XOR: LOGIC_RULE,
    COMP: LOGIC_RULE,
    BROT: LOGIC_RULE,
    CMPR: Rule(MATRIX, (0, 1, 3, 4), POINTER_AND_MATRIX, (4,), LONGEST),
    MBIT: Rule(POINTER, (3, 4, 9), MATRIX, (0, 4), LONGEST_SINGLE),
    SENS: Rule(POINTER, (3, 4, 9), MATRIX, (0, 1, 3, 4), LONGEST_SINGLE),
}

# "kind; length n; top node (class, number); middle node (class, number);
#  top, middle and bottom input (code, number each); three coil numbers"
Node = namedtuple("Node", "class_ number")
Input = namedtuple("Input", "code number")
Block = namedtuple("Block", "kind n top middle inputs coils")


# ---- Numbers returned -------------------------------------------------------------------------


class Refused(Exception):
    """A refusal: its number and its place."""

    def __init__(self, number, place):
        super().__init__(number, place)
        self.number = number
        self.place = place


class Words:
    """The file's words, taken one after the other; `place` is the number, from 1, of the last one taken."""

    def __init__(self, data):
        self.data = data
        self.place = 0

    # "big-endian words"; 1: "the words end before the one now needed"; "An odd last byte is a missing word"
    def take(self):
        self.place += 1
        pair = self.data[2 * self.place - 2 : 2 * self.place]
        if len(pair) < 2:
            raise Refused(1, self.place)
        return 256 * pair[0] + pair[1]

    # "The place is the word's number from 1"
    def refuse_when(self, fault, number):
        if fault:
            raise Refused(number, self.place)

    # 11: "words left over"; "or after the run a word left over"; "11 give[s] the first word ... left over"
    def end(self):
        if len(self.data) > 2 * self.place:
            raise Refused(11, self.place + 1)


# ---- A network in words: "Words are checked from the first on, each when it is reached." ---------


# "Areas: count 4, then the four sizes in words." 2: "a section's count is not an allowed one"
# 02: "The areas section may have count 5, the fifth word being the level"; "2 for a count that is neither 4 nor 5"
def read_areas(words):
    count = words.take()
    words.refuse_when(count not in (4, 5), 2)
    sizes = {area: read_size(words, area) for area in AREAS}
    return sizes, read_level(words) if count == 5 else 1


# 02: "3 for another level, at its word"
def read_level(words):
    level = words.take()
    words.refuse_when(level not in LEVELS, 3)
    return level


# 3: "an area size over its limit"; "An area may be 0 words long."
def read_size(words, area):
    size = words.take()
    words.refuse_when(size > LIMITS[area], 3)
    return size


# "Blocks: count 0 to 128, then 15 words for each block"
def read_blocks(words, sizes, level):
    count = words.take()
    words.refuse_when(count > GREATEST_COUNT, 2)
    return [read_block(words, sizes, level, k) for k in range(1, count + 1)]


# "kind; length n; top node ...; middle node ...; top, middle and bottom input ...; three coil numbers"
def read_block(words, sizes, level, k):
    kind = read_kind(words)
    rule = RULES[kind]
    n = read_length(words, rule.longest[level])
    top = read_node(words, sizes, level, n, rule.top, rule.top_classes)
    middle = read_node(words, sizes, level, n, rule.middle, rule.middle_classes)
    inputs = [read_input(words, sizes, k) for _ in range(3)]
    coils = [read_coil(words, sizes) for _ in range(3)]
    return Block(kind, n, top, middle, inputs, coils)


# 4: "kind not 1 to 8"
def read_kind(words):
    kind = words.take()
    words.refuse_when(kind < 1 or kind > 8, 4)
    return kind


# 5: "n out of range for the kind"; 02: "5 and 6 use the level's limits"
def read_length(words, longest):
    n = words.take()
    words.refuse_when(n < 1 or n > longest, 5)
    return n


# 6: "class not allowed in that node"
def read_node(words, sizes, level, n, what, classes):
    class_ = words.take()
    words.refuse_when(class_ not in classes, 6)
    number = words.take()
    check_number(words, sizes, level, n, what, class_, number)
    return Node(class_, number)


# "At one word the lower number wins."
def check_number(words, sizes, level, n, what, class_, number):
    words.refuse_when(number_fault(level, class_, number), 6)
    words.refuse_when(start_fault(what, class_, number), 7)
    words.refuse_when(past_fault(sizes, n, what, class_, number), 8)


# 6: "number 0 where no constant; constant over 999"; 02: "5 and 6 use the level's limits"
def number_fault(level, class_, number):
    if class_ == CONSTANT:
        return number > GREATEST_CONSTANT[level]
    return number == 0


# 7: "a discrete matrix with a bad start"; "starts at a reference that leaves remainder 1 on division by 16"
def start_fault(what, class_, number):
    return what == MATRIX and class_ in DISCRETES and number % 16 != 1


# 8: "operand runs past its area (for CMPR's middle node: n+1 registers)"
def past_fault(sizes, n, what, class_, number):
    if class_ == CONSTANT:
        return False
    return first_bit(class_, number) + 16 * words_of(what, n) > 16 * sizes[class_]


# "pointer in 4, its matrix in the n registers after it"; a pointer alone is one register
def words_of(what, n):
    if what == POINTER:
        return 1
    if what == POINTER_AND_MATRIX:
        return n + 1
    return n


# 9: "unknown input code"
def read_input(words, sizes, k):
    code = words.take()
    words.refuse_when(code > 8, 9)
    number = words.take()
    words.refuse_when(input_fault(sizes, k, code, number), 9)
    return Input(code, number)


# 9: "number not 0 for codes 0 and 1; contact 0 or past its area; block 0 or not earlier"
def input_fault(sizes, k, code, number):
    if code in (0, 1):
        return number != 0
    if code in (2, 3):
        return number == 0 or number > 16 * sizes[COILS]
    if code in (4, 5):
        return number == 0 or number > 16 * sizes[INPUTS]
    return number == 0 or number >= k


# 10: "coil past its area"; "0 for none"
def read_coil(words, sizes):
    coil = words.take()
    words.refuse_when(coil > 16 * sizes[COILS], 10)
    return coil


# ---- The bench file: "areas, blocks, then the image ..., then the run ..." -----------------------


# "the image (count equal to the sum of the areas, then the words)"
def read_image(words, sizes):
    count = words.take()
    words.refuse_when(count != sum(sizes.values()), 2)
    return {area: read_area(words, sizes[area]) for area in AREAS}


# "One lent run of 16-bit words holds four areas in this order"; here each area is a list of bits
def read_area(words, size):
    bits = []
    for _ in range(size):
        bits.extend(bits_of(words.take()))
    return bits


# "the run (count 1, then scans, 1 to 1000)"; 3: "scans not 1 to 1000"
def read_run(words):
    count = words.take()
    words.refuse_when(count != 1, 2)
    scans = words.take()
    words.refuse_when(scans < 1 or scans > GREATEST_SCANS, 3)
    return scans


# "It reads one file from standard input"
def read_file(data):
    words = Words(data)
    sizes, level = read_areas(words)
    blocks = read_blocks(words, sizes, level)
    table = read_image(words, sizes)
    scans = read_run(words)
    words.end()
    return sizes, blocks, table, scans


# ---- The table ----------------------------------------------------------------------------------


# "Bit 1 of a word is worth 32768, bit 16 is worth 1."
WORTHS = [32768, 16384, 8192, 4096, 2048, 1024, 512, 256, 128, 64, 32, 16, 8, 4, 2, 1]


def bits_of(word):
    return [word // worth % 2 for worth in WORTHS]


def value_of(bits):
    return sum(bit * worth for bit, worth in zip(bits, WORTHS))


# "References count from 1 in each area." "Bits of a matrix are numbered from 1 ..., 16 to a word"
# open: how one discrete stands in its word; the order of a matrix of discretes is taken (reference 1 is bit 1)
def first_bit(class_, number):
    if class_ in DISCRETES:
        return number - 1
    return 16 * (number - 1)


def matrix_at(table, class_, number, n):
    first = first_bit(class_, number)
    return table[class_][first : first + 16 * n]


def write_matrix(table, class_, number, bits):
    first = first_bit(class_, number)
    table[class_][first : first + len(bits)] = bits


def register(table, class_, number):
    return value_of(matrix_at(table, class_, number, 1))


def write_register(table, number, value):
    write_matrix(table, HOLDING, number, bits_of(value))


def discrete(table, class_, number):
    return table[class_][first_bit(class_, number)]


def write_coil(table, number, bit):
    table[COILS][first_bit(COILS, number)] = bit


# ---- One scan -----------------------------------------------------------------------------------


# What the scan's outputs record has of a block.
# 02: "The scan's outputs record carries the count for every block"
Record = namedtuple("Record", "top middle bottom count")


# "Blocks run in order." "Each line: scan, block, top, middle, bottom, pointer when the block is done"
def scan(blocks, table, number):
    outputs = []
    lines = []
    for block in blocks:
        outputs.append(run_block(block, table, outputs))
        lines.append(line(number, len(outputs), outputs[-1], shown_pointer(block, table)))
    return lines


# "All a block reads is read before it writes"
def run_block(block, table, outputs):
    powers = [power(given, table, outputs) for given in block.inputs]
    work = WORK[block.kind](read_all(block, table, powers))
    outputs_now = [powers[0], work.middle, work.bottom]  # "The top output equals the top input."
    write_all(block, table, work, outputs_now)
    return Record(*outputs_now, work.count)


# "0 never, 1 always ...; 2 and 3 open and closed contact of a coil; 4 and 5 ... of a discrete input;
#  6, 7, 8 the top, middle, bottom output, in this scan, of an earlier block numbered from 1"
def power(given, table, outputs):
    if given.code == 0:
        return 0
    if given.code == 1:
        return 1
    if given.code == 2:
        return open_contact(discrete(table, COILS, given.number))
    if given.code == 3:
        return closed_contact(discrete(table, COILS, given.number))
    if given.code == 4:
        return open_contact(discrete(table, INPUTS, given.number))
    if given.code == 5:
        return closed_contact(discrete(table, INPUTS, given.number))
    return outputs[given.number - 1][given.code - 6]


# "An open contact passes power when its bit is 1"
def open_contact(bit):
    return bit


# "a closed one when it is 0"
def closed_contact(bit):
    return 1 - bit


# What a block reads. `second` is the middle node's matrix; `moves` tells whether the pointer is in class 4.
Read = namedtuple("Read", "size source second pointer moves top middle bottom")

# What a block gives: two outputs, its destination's bits and its new pointer, None where nothing is written, and a count.
# 02: "0 without power"; "0 for the other kinds"
Work = namedtuple("Work", "middle bottom destination pointer count", defaults=(0,))


def read_all(block, table, powers):
    place = pointer_node(block)
    source = None
    if RULES[block.kind].top == MATRIX:
        source = matrix_at(table, block.top.class_, block.top.number, block.n)
    second = matrix_at(table, block.middle.class_, second_number(block), block.n)
    pointer = None if place is None else pointer_value(place, table)
    moves = place is not None and place.class_ == HOLDING
    return Read(16 * block.n, source, second, pointer, moves, *powers)


# CMPR: "pointer in 4, its matrix in the n registers after it"
def second_number(block):
    if block.kind == CMPR:
        return block.middle.number + 1
    return block.middle.number


# CMPR's pointer stands in the middle node, MBIT's and SENS's in the top node
def pointer_node(block):
    if block.kind == CMPR:
        return block.middle
    if block.kind in (MBIT, SENS):
        return block.top
    return None


# "9 a constant whose number is its value"
def pointer_value(node, table):
    if node.class_ == CONSTANT:
        return node.number
    return register(table, node.class_, node.number)


# "It then writes its destination, then its pointer where its rule gives a new one, then its named coils,
#  top, middle, bottom, 1 for power and 0 for none, also when the top input has no power."
def write_all(block, table, work, outputs_now):
    if work.destination is not None:
        write_matrix(table, block.middle.class_, block.middle.number, work.destination)
    if work.pointer is not None:
        write_register(table, pointer_node(block).number, work.pointer)
    for coil, output in zip(block.coils, outputs_now):
        if coil != 0:
            write_coil(table, coil, output)


# "With no power on top the other outputs are off and nothing is done but a reset and the coil writes."
NOTHING = Work(0, 0, None, None)


# "AND, OR, XOR: destination bit becomes the operation on both matrices' bits. ... Middle and bottom outputs off."
def and_block(read):
    if not read.top:
        return NOTHING
    return Work(0, 0, [a & b for a, b in zip(read.source, read.second)], None)


def or_block(read):
    if not read.top:
        return NOTHING
    return Work(0, 0, [a | b for a, b in zip(read.source, read.second)], None)


def xor_block(read):
    if not read.top:
        return NOTHING
    return Work(0, 0, [a ^ b for a, b in zip(read.source, read.second)], None)


# "COMP: the opposite of the source bit. Middle and bottom outputs off."
def comp_block(read):
    if not read.top:
        return NOTHING
    return Work(0, 0, [1 - a for a in read.source], None)


# "Found: pointer is that position, middle on, bottom shows the source's bit.
#  None: pointer 16n (our reading of "stops at the end"), middle and bottom off."
def cmpr_block(read):
    reset = cmpr_reset(read)
    if not read.top:
        return Work(0, 0, None, reset)
    start = cmpr_start(read, reset)
    position = differing(read.source, read.second, start)
    if position is None:
        return Work(0, 0, None, read.size, examined(start, read.size))
    return Work(1, read.source[position - 1], None, position, examined(start, position))


# "power on the middle input sets the pointer to 0 first, with or without power on top"
def cmpr_reset(read):
    if read.middle:
        return 0
    return None


# "With power, a pointer of 16n or more counts as 0."
def cmpr_start(read, reset):
    pointer = read.pointer if reset is None else reset
    if pointer >= read.size:
        return 0
    return pointer


# "The first differing position above the pointer is sought."
def differing(source, second, pointer):
    for position in range(pointer + 1, len(source) + 1):
        if source[position - 1] != second[position - 1]:
            return position
    return None


# 02: "how many bit pairs it examined: the position reached less the pointer it started from after reset or wrap"
def examined(start, reached):
    return reached - start


# "BROT: the source moved one position goes to the destination; power on middle means left (bit 2 into 1),
#  none means right (bit 1 into 2)." "Middle output is the bit that left. Bottom off."
def brot_block(read):
    if not read.top:
        return NOTHING
    left = read.source[0] if read.middle else read.source[-1]
    enters = brot_enters(read, left)
    if read.middle:
        return Work(left, 0, read.source[1:] + [enters], None)
    return Work(left, 0, [enters] + read.source[:-1], None)


# "With power on bottom the bit that leaves enters at the other end, else 0 enters."
def brot_enters(read, left):
    if read.bottom:
        return left
    return 0


# "over 16n nothing is done, the pointer stays, ... and bottom on"
# "0 touches no bit, ... bottom off; from 1 to 16n bottom is off"
# 02: "with power on top, MBIT's middle output equals its middle input, for pointer 0 and over 16n too"
def mbit_block(read):
    if not read.top:
        return NOTHING
    if read.pointer > read.size:
        return Work(read.middle, 1, None, None)
    increased = increase(read.pointer, read) if read.bottom and read.moves else None
    if read.pointer == 0:
        return Work(read.middle, 0, None, increased)
    return Work(read.middle, 0, mbit_matrix(read), increased)


# "MBIT: the bit at the pointer becomes 1 with power on middle, else 0."
def mbit_matrix(read):
    matrix = list(read.second)
    matrix[read.pointer - 1] = read.middle
    return matrix


# "SENS: the middle output is the bit at the pointer"
# "over 16n nothing is done, the pointer stays, middle is off and bottom on"; "0 touches no bit, middle and bottom off"
def sens_block(read):
    reset = sens_reset(read)
    if not read.top:
        return Work(0, 0, None, reset)
    pointer = read.pointer if reset is None else reset
    if pointer > read.size:
        return Work(0, 1, None, None)
    sensed = 0 if pointer == 0 else read.second[pointer - 1]
    return Work(sensed, 0, None, increase(pointer, read) if read.middle and read.moves else reset)


# "Power on bottom sets the pointer to 1 first, with or without power on top."
# "Only a pointer in class 4 is ever reset or increased; for others these inputs are ignored."
def sens_reset(read):
    if read.bottom and read.moves:
        return 1
    return None


# "Increase ... comes after the work, adds 1, but takes 16n to 1."
def increase(pointer, read):
    if pointer == read.size:
        return 1
    return pointer + 1


WORK = {
    AND: and_block,
    OR: or_block,
    XOR: xor_block,
    COMP: comp_block,
    CMPR: cmpr_block,
    MBIT: mbit_block,
    SENS: sens_block,
    BROT: brot_block,
}


# ---- The bench program --------------------------------------------------------------------------


# "Each line: scan, block, top, middle, bottom, pointer"; 02: "the bench prints it as a seventh field"
def line(scan_number, block_number, record, pointer):
    parts = [scan_number, block_number, record.top, record.middle, record.bottom, pointer, record.count]
    return " ".join(str(part) for part in parts)


# "pointer when the block is done (a constant prints itself; `-` for kinds without one)"
# open: a pointer that the block changed by writing its own matrix; the register is read after all the block's writes
def shown_pointer(block, table):
    place = pointer_node(block)
    return "-" if place is None else pointer_value(place, table)


# "The first line gives blocks and table words, the last the scans."
# open: the end of the last line; every line, the last too, ends with a newline
def run(sizes, blocks, table, scans):
    lines = ["blocks %d words %d" % (len(blocks), sum(sizes.values()))]
    for number in range(1, scans + 1):
        lines.extend(scan(blocks, table, number))
    lines.append("end %d" % scans)
    return lines


# "Refused: one line, `refused`, number, place."
def answer(data):
    try:
        lines = run(*read_file(data))
    except Refused as refusal:
        lines = ["refused %d %d" % (refusal.number, refusal.place)]
    return "".join(text + "\n" for text in lines)


if __name__ == "__main__":
    sys.stdout.write(answer(sys.stdin.buffer.read()))
