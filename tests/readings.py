"""Wrong readings of documents 01 and 02, each as a small edit of model.py's text, for wrong.py.

A reading has a name, a line that says what is wrong, and one or more edits (old text, new text).
Each old text stands exactly once in the text it is applied to.
"""
from collections import namedtuple

Reading = namedtuple("Reading", "part name wrong edits")
READINGS = []


def reading(name, wrong, *texts):
    """Add a reading to the part begun last; the texts are old, new, old, new, ..."""
    READINGS.append(Reading(PART[0], name, wrong, list(zip(texts[0::2], texts[1::2]))))


PART = [""]


def part(name):
    PART[0] = name


# -------------------------------------------------------------------------------------------------
part("the table")

WORTHS = "[32768, 16384, 8192, 4096, 2048, 1024, 512, 256, 128, 64, 32, 16, 8, 4, 2, 1]"
reading("bit order", "bit 1 is the low-order bit", WORTHS, "[2 ** i for i in range(16)]")
reading("byte order", "words are little-endian", "256 * pair[0] + pair[1]", "pair[0] + 256 * pair[1]")
reading("discrete order", "a contact reads its word from the low-order bit",
        "return table[class_][first_bit(class_, number)]",
        "return table[class_][(number - 1) // 16 * 16 + 15 - (number - 1) % 16]")
reading("coil order", "coil writes and contacts count from the low-order bit",
        "return table[class_][first_bit(class_, number)]",
        "return table[class_][(number - 1) // 16 * 16 + 15 - (number - 1) % 16]",
        "table[COILS][first_bit(COILS, number)] = bit",
        "table[COILS][(number - 1) // 16 * 16 + 15 - (number - 1) % 16] = bit")
reading("area order", "the image holds the holding registers before the input registers",
        "{area: read_area(words, sizes[area]) for area in AREAS}",
        "{area: read_area(words, sizes[area]) for area in (COILS, INPUTS, HOLDING, INPUT_REGISTERS)}")
reading("references from 0", "register references count from 0", "return 16 * (number - 1)", "return 16 * number")

# -------------------------------------------------------------------------------------------------
part("limits")

LIMITS = "LIMITS = {COILS: 128, INPUTS: 128, INPUT_REGISTERS: 512, HOLDING: 9999}"
for area, limit in (("COILS", 128), ("INPUTS", 128), ("INPUT_REGISTERS", 512), ("HOLDING", 9999)):
    for wrong_limit in (limit - 1, limit + 1):
        reading("%s limit %d" % (area.lower(), wrong_limit), "the area's limit is %d words" % wrong_limit,
                LIMITS, LIMITS.replace("%s: %d" % (area, limit), "%s: %d" % (area, wrong_limit)))
for name, limit in (("GREATEST_COUNT", 128), ("GREATEST_SCANS", 1000)):
    for wrong_limit in (limit - 1, limit + 1):
        reading("%s %d" % (name.lower(), wrong_limit), "the limit is %d" % wrong_limit,
                "%s = %d\n" % (name, limit), "%s = %d\n" % (name, wrong_limit))

# Each limit by level, as the model has it, and the wrong numbers for each level.
CONSTANTS = "GREATEST_CONSTANT = {1: 999, 2: 9600}"
for level, wrong_limits in ((1, (998, 1000, 9600)), (2, (999, 9599, 9601))):
    for wrong_limit in wrong_limits:
        reading("constant at level %d %d" % (level, wrong_limit), "constants go to %d at level %d" % (wrong_limit, level),
                CONSTANTS, CONSTANTS + "\nGREATEST_CONSTANT[%d] = %d" % (level, wrong_limit))
for name, row, levels in (
        ("logic", "LOGIC_RULE = Rule(MATRIX, (0, 1, 3, 4), MATRIX, (0, 4), LONGEST)", {1: (99, 101, 255), 2: (99, 101, 255, 600)}),
        ("CMPR", "CMPR: Rule(MATRIX, (0, 1, 3, 4), POINTER_AND_MATRIX, (4,), LONGEST)", {1: (99, 101, 255), 2: (99, 101, 600)}),
        ("MBIT", "MBIT: Rule(POINTER, (3, 4, 9), MATRIX, (0, 4), LONGEST_SINGLE)", {1: (100, 254, 256, 600), 2: (255, 599, 601)}),
        ("SENS", "SENS: Rule(POINTER, (3, 4, 9), MATRIX, (0, 1, 3, 4), LONGEST_SINGLE)", {1: (100, 254, 256, 600), 2: (255, 599, 601)})):
    for level in levels:
        for wrong_limit in levels[level]:
            start, lengths = row[:-1].rsplit(" ", 1)
            reading("%s longest %d at level %d" % (name, wrong_limit, level), "n goes to %d at level %d" % (wrong_limit, level),
                    row, "%s {**%s, %d: %d})" % (start, lengths, level, wrong_limit))
for kind in ("AND", "OR", "XOR", "COMP", "BROT"):
    for wrong_limit in (99, 101, 255):
        reading("%s longest %d" % (kind, wrong_limit), "n goes to %d for %s alone" % (wrong_limit, kind),
                "    %s: LOGIC_RULE,\n" % kind, "    %s: LOGIC_RULE._replace(longest={1: %d, 2: %d}),\n" % (kind, wrong_limit, wrong_limit))
reading("n of 0", "a length of 0 is allowed", "n < 1 or n > longest", "n > longest")
reading("no scans", "0 scans are allowed", "scans < 1 or scans", "scans")
reading("kind 0", "kind 0 is AND", "words.refuse_when(kind < 1 or kind > 8, 4)",
        "words.refuse_when(kind > 8, 4)\n    kind = kind or 1")
reading("kind 9", "kind 9 is BROT", "words.refuse_when(kind < 1 or kind > 8, 4)",
        "words.refuse_when(kind < 1 or kind > 9, 4)\n    kind = min(kind, 8)")

# -------------------------------------------------------------------------------------------------
part("levels")

COUNTS = "    words.refuse_when(count not in (4, 5), 2)\n"
LEVEL = "    return sizes, read_level(words) if count == 5 else 1\n"
KNOWN = "    words.refuse_when(level not in LEVELS, 3)\n"
reading("no level", "count 5 is not allowed", COUNTS, COUNTS.replace("not in (4, 5)", "!= 4"))
reading("level everywhere", "count 4 is not allowed", COUNTS, COUNTS.replace("not in (4, 5)", "!= 5"))
reading("count 6", "count 6 is allowed, its last word anything", COUNTS, COUNTS.replace("(4, 5)", "(4, 5, 6)"),
        LEVEL, "    level = read_level(words) if count > 4 else 1\n    if count == 6:\n        words.take()\n    return sizes, level\n")
reading("count 3", "count 3 is allowed: no holding registers", COUNTS, COUNTS.replace("(4, 5)", "(3, 4, 5)"),
        "    sizes = {area: read_size(words, area) for area in AREAS}\n",
        "    sizes = {area: 0 if count == 3 and area == HOLDING else read_size(words, area) for area in AREAS}\n")
reading("count 4 is level 2", "count 4 means Level 2", LEVEL, LEVEL.replace("else 1", "else 2"))
reading("count 5 is level 2", "count 5 means Level 2, whatever its fifth word says", LEVEL, "    if count == 5:\n        read_level(words)\n" + LEVEL.replace("read_level(words)", "2"))
reading("count 5 is level 1", "the level changes nothing", LEVEL, "    if count == 5:\n        read_level(words)\n    return sizes, 1\n")
reading("levels swapped", "level 1 is the larger machine", LEVEL, LEVEL.replace("read_level(words)", "3 - read_level(words)"))
reading("level 0", "level 0 is Level 1", KNOWN, "    level = level or 1\n" + KNOWN)
reading("level 3", "level 3 is Level 2", KNOWN, "    level = 2 if level == 3 else level\n" + KNOWN)
reading("any level", "every other level is Level 2", KNOWN, "    level = 1 if level == 1 else 2\n")
reading("level 1 refused", "a level of its own word has to be 2", KNOWN, KNOWN.replace("not in LEVELS", "!= 2"))
reading("level 2 refused", "a level of its own word has to be 1", KNOWN, KNOWN.replace("not in LEVELS", "!= 1"))
reading("level first", "the level stands before the sizes",
        "    sizes = {area: read_size(words, area) for area in AREAS}\n" + LEVEL,
        "    level = read_level(words) if count == 5 else 1\n"
        "    sizes = {area: read_size(words, area) for area in AREAS}\n    return sizes, level\n")
reading("level judged first", "the level is judged before the sizes",
        "    sizes = {area: read_size(words, area) for area in AREAS}\n",
        "    if count == 5 and len(words.data) >= 12:\n"
        "        words.place += 4\n        read_level(words)\n        words.place -= 5\n"
        "    sizes = {area: read_size(words, area) for area in AREAS}\n")
reading("level at the count", "another level is refused at the count", KNOWN, "    words.place -= 5 * (level not in LEVELS)\n" + KNOWN)
reading("level in the image", "the image counts the level as a word", "    words.refuse_when(count != sum(sizes.values()), 2)\n",
        "    words.refuse_when(count != sum(sizes.values()) + read_areas.told, 2)\n",
        LEVEL, "    read_areas.told = int(count == 5)\n" + LEVEL)
reading("level in the words", "the first line counts the level as a word", "len(blocks), sum(sizes.values()))", "len(blocks), sum(sizes.values()) + read_areas.told)",
        LEVEL, "    read_areas.told = int(count == 5)\n" + LEVEL)
reading("places without level", "places do not count the level", "    words.refuse_when(level not in LEVELS, 3)\n    return level\n",
        "    words.refuse_when(level not in LEVELS, 3)\n    words.data = words.data[:10] + words.data[12:]\n    words.place -= 1\n    return level\n")
reading("holding by level", "Level 2 has more holding registers", "    words.refuse_when(size > LIMITS[area], 3)\n",
        "    words.refuse_when(size > LIMITS[area] + (words.data[:2] == b\"\\0\\5\"), 3)\n")
reading("constant over 16n", "a constant may not be over 16n", "        return number > GREATEST_CONSTANT[level]\n",
        "        return number > min(GREATEST_CONSTANT[level], 16 * number_fault.n)\n",
        "    words.refuse_when(number_fault(level, class_, number), 6)\n", "    number_fault.n = n\n    words.refuse_when(number_fault(level, class_, number), 6)\n")

# -------------------------------------------------------------------------------------------------
part("refusal numbers")

reading("1 as 11", "missing words give 11", "raise Refused(1, self.place)", "raise Refused(11, self.place)")
reading("11 as 1", "words left over give 1", "raise Refused(11, self.place + 1)", "raise Refused(1, self.place + 1)")
reading("areas as 3", "a bad count of areas gives 3", "(count not in (4, 5), 2)", "(count not in (4, 5), 3)")
reading("level as 2", "another level gives 2", "(level not in LEVELS, 3)", "(level not in LEVELS, 2)")
reading("size as 2", "an area over its limit gives 2", "(size > LIMITS[area], 3)", "(size > LIMITS[area], 2)")
reading("count as 3", "too many blocks give 3", "(count > GREATEST_COUNT, 2)", "(count > GREATEST_COUNT, 3)")
reading("kind as 5", "an unknown kind gives 5", "kind > 8, 4)", "kind > 8, 5)")
reading("n as 4", "a length out of range gives 4", "n > longest, 5)", "n > longest, 4)")
reading("class as 4", "a class not allowed gives 4", "(class_ not in classes, 6)", "(class_ not in classes, 4)")
reading("number as 8", "number 0 or a constant over 999 gives 8", "(level, class_, number), 6)", "(level, class_, number), 8)")
reading("start as 8", "a bad start gives 8", "what, class_, number), 7)\n    words.refuse_when(past", "what, class_, number), 8)\n    words.refuse_when(past")
reading("past as 7", "an operand past its area gives 7", "what, class_, number), 8)", "what, class_, number), 7)")
reading("code as 6", "an unknown input code gives 6", "(code > 8, 9)", "(code > 8, 6)")
reading("contact as 8", "a contact past its area gives 8", "k, code, number), 9)", "k, code, number), 8 if 2 <= code <= 5 and number else 9)")
reading("coil as 9", "a coil past its area gives 9", "(coil > 16 * sizes[COILS], 10)", "(coil > 16 * sizes[COILS], 9)")
reading("image as 12", "a bad image count gives 12, place 0",
        "words.refuse_when(count != sum(sizes.values()), 2)",
        "words.place = words.place if count == sum(sizes.values()) else 0\n    words.refuse_when(words.place == 0, 12)")
reading("run as 3", "a bad run count gives 3", "(count != 1, 2)", "(count != 1, 3)")
reading("scans as 2", "scans out of range give 2", "scans > GREATEST_SCANS, 3)", "scans > GREATEST_SCANS, 2)")

# -------------------------------------------------------------------------------------------------
part("refusal order and place")

SIX = "    words.refuse_when(number_fault(level, class_, number), 6)\n"
SEVEN = "    words.refuse_when(start_fault(what, class_, number), 7)\n"
EIGHT = "    words.refuse_when(past_fault(sizes, n, what, class_, number), 8)\n"
reading("7 before 6", "a bad start wins over number 0", SIX + SEVEN, SEVEN + SIX)
reading("8 before 7", "running past wins over a bad start", SEVEN + EIGHT, EIGHT + SEVEN)
reading("place from 0", "places count from 0", "(refusal.number, refusal.place)", "(refusal.number, refusal.place - 1)")
reading("place in bytes", "places count bytes", "(refusal.number, refusal.place)", "(refusal.number, 2 * refusal.place - 1)")
reading("place in record", "places in a block count from 1 to 15",
        "    return [read_block(words, sizes, level, k) for k in range(1, count + 1)]",
        "    start = words.place\n"
        "    try:\n"
        "        return [read_block(words, sizes, level, k) for k in range(1, count + 1)]\n"
        "    except Refused as first:\n"
        "        raise Refused(first.number, (first.place - start - 1) % 15 + 1)")
reading("class at number", "the class is judged after the number's word is taken",
        "    words.refuse_when(class_ not in classes, 6)\n    number = words.take()\n",
        "    number = words.take()\n    words.refuse_when(class_ not in classes, 6)\n")
reading("number at class", "a number's fault has the place of its class",
        "    check_number(words, sizes, level, n, what, class_, number)\n",
        "    words.place -= 1\n    check_number(words, sizes, level, n, what, class_, number)\n    words.place += 1\n")
reading("number before class", "the number's faults are judged before the class",
        "    words.refuse_when(class_ not in classes, 6)\n    number = words.take()\n",
        "    number = words.take()\n"
        "    words.refuse_when(number == 0 and class_ != CONSTANT, 6)\n"
        "    words.place -= 1\n"
        "    words.refuse_when(class_ not in classes, 6)\n"
        "    words.place += 1\n")
reading("code at number", "the code is judged after the number's word is taken",
        "    words.refuse_when(code > 8, 9)\n    number = words.take()\n",
        "    number = words.take()\n    words.refuse_when(code > 8, 9)\n")
reading("input at code", "an input number's fault has the place of its code",
        "    words.refuse_when(input_fault(sizes, k, code, number), 9)\n",
        "    words.place -= 1\n    words.refuse_when(input_fault(sizes, k, code, number), 9)\n    words.place += 1\n")
reading("n before kind", "a length over 255 wins over an unknown kind",
        "    kind = read_kind(words)\n",
        "    words.take()\n    words.refuse_when(words.take() > 255, 5)\n    words.place -= 2\n    kind = read_kind(words)\n")
reading("lower in a block", "the lower number of a block's two nodes wins",
        "    top = read_node(words, sizes, level, n, rule.top, rule.top_classes)\n",
        "    start = words.place\n"
        "    try:\n"
        "        top = read_node(words, sizes, level, n, rule.top, rule.top_classes)\n"
        "    except Refused as first:\n"
        "        words.place = start + 2\n"
        "        try:\n"
        "            read_node(words, sizes, level, n, rule.middle, rule.middle_classes)\n"
        "        except Refused as second:\n"
        "            raise min(first, second, key=lambda refusal: refusal.number)\n"
        "        raise first\n")
reading("lower of all blocks", "of the faults in several blocks the lowest number wins",
        "    return [read_block(words, sizes, level, k) for k in range(1, count + 1)]",
        "    start, blocks, faults = words.place, [], []\n"
        "    for k in range(1, count + 1):\n"
        "        words.place = start + 15 * (k - 1)\n"
        "        try:\n"
        "            blocks.append(read_block(words, sizes, level, k))\n"
        "        except Refused as fault:\n"
        "            faults.append(fault)\n"
        "    if faults:\n"
        "        raise min(faults, key=lambda fault: fault.number)\n"
        "    return blocks")
reading("record whole first", "a block's 15 words have to be there before the first is judged",
        "    kind = read_kind(words)\n",
        "    if len(words.data) // 2 < words.place + 15:\n"
        "        raise Refused(1, len(words.data) // 2 + 1)\n"
        "    kind = read_kind(words)\n")
reading("blocks whole first", "all blocks' words have to be there before the first is judged",
        "    return [read_block(words, sizes, level, k) for k in range(1, count + 1)]",
        "    if len(words.data) // 2 < words.place + 15 * count:\n"
        "        raise Refused(1, len(words.data) // 2 + 1)\n"
        "    return [read_block(words, sizes, level, k) for k in range(1, count + 1)]")
reading("sizes after count", "the area sizes are judged when all four are read",
        "    sizes = {area: read_size(words, area) for area in AREAS}\n",
        "    for _ in AREAS:\n        words.take()\n    words.place -= 4\n"
        "    sizes = {area: read_size(words, area) for area in AREAS}\n")
reading("nodes after inputs", "the inputs are judged before the nodes",
        "    top = read_node(words, sizes, level, n, rule.top, rule.top_classes)\n",
        "    words.place += 4\n"
        "    inputs = [read_input(words, sizes, k) for _ in range(3)]\n"
        "    words.place -= 10\n"
        "    top = read_node(words, sizes, level, n, rule.top, rule.top_classes)\n")
reading("left over first", "words left over win over a bad number of scans",
        "    words.refuse_when(scans < 1", "    words.end()\n    words.refuse_when(scans < 1")

# -------------------------------------------------------------------------------------------------
part("the file's end")

reading("odd byte dropped", "an odd byte after the run is no word", "if len(self.data) > 2 * self.place", "if len(self.data) // 2 > self.place")
reading("odd byte a word", "an odd last byte is a word with 0 after it",
        "        if len(pair) < 2:\n", "        pair = pair + bytes(len(pair) % 2)\n        if len(pair) < 2:\n")
reading("odd byte first", "an odd length is refused before all else",
        "    words = Words(data)\n", "    words = Words(data)\n    if len(data) % 2:\n        raise Refused(1, len(data) // 2 + 1)\n")
reading("odd byte missing", "an odd byte after the run is a missing word",
        "            raise Refused(11, self.place + 1)",
        "            raise Refused(11 if len(self.data) > 2 * self.place + 1 else 1, self.place + 1)")
reading("left over allowed", "words after the run are not looked at", "    words.end()\n", "")
reading("left over at the end", "11 gives the last word left over",
        "raise Refused(11, self.place + 1)", "raise Refused(11, (len(self.data) + 1) // 2)")
reading("missing at the last", "1 gives the last word there is", "raise Refused(1, self.place)", "raise Refused(1, self.place - 1)")

# -------------------------------------------------------------------------------------------------
part("what is allowed")

reading("start 0", "a discrete matrix starts at a multiple of 16", "number % 16 != 1", "number % 16 != 0")
reading("start free", "a discrete matrix starts anywhere", "class_ in DISCRETES and number % 16 != 1", "class_ in DISCRETES and number % 16 > 16")
reading("start for coils only", "the start rule holds for coils alone", "class_ in DISCRETES and number % 16", "class_ == COILS and number % 16")
reading("number 0", "number 0 is no fault of its own", "    return number == 0\n\n\n# 7", "    return False\n\n\n# 7")
reading("constant 0", "the constant 0 is refused", "return number > GREATEST_CONSTANT[level]", "return number == 0 or number > GREATEST_CONSTANT[level]")
reading("past by one", "an operand may end one word past its area",
        "> 16 * sizes[class_]\n", "> 16 * sizes[class_] + 16\n")
reading("full area", "an operand may not reach its area's last word",
        "> 16 * sizes[class_]\n", ">= 16 * sizes[class_]\n")
reading("start in area", "only an operand's first word has to be in its area",
        "16 * words_of(what, n) > 16", "16 * min(1, words_of(what, n)) > 16")
reading("CMPR n registers", "CMPR's middle node needs n registers", "        return n + 1\n", "        return n\n")
reading("CMPR n+2 registers", "CMPR's middle node needs n+2 registers", "        return n + 1\n", "        return n + 2\n")
reading("pointer of n", "a pointer needs n registers", "    if what == POINTER:\n        return 1\n", "    if what == POINTER:\n        return n\n")
for name, row, wrong_row, wrong in (
        ("logic to inputs", "MATRIX, (0, 4), LONGEST)", "MATRIX, (0, 1, 4), LONGEST)", "a destination may be discrete inputs"),
        ("logic to input registers", "MATRIX, (0, 4), LONGEST)", "MATRIX, (0, 3, 4), LONGEST)", "a destination may be input registers"),
        ("logic to coils", "MATRIX, (0, 4), LONGEST)", "MATRIX, (4,), LONGEST)", "a destination may not be coils"),
        ("CMPR with coils", "POINTER_AND_MATRIX, (4,), LONGEST)", "POINTER_AND_MATRIX, (0, 4), LONGEST)", "CMPR's middle node may be coils"),
        ("CMPR with input registers", "POINTER_AND_MATRIX, (4,), LONGEST)", "POINTER_AND_MATRIX, (3, 4), LONGEST)", "CMPR's middle node may be input registers"),
        ("MBIT in inputs", "MATRIX, (0, 4), LONGEST_SINGLE)", "MATRIX, (0, 1, 3, 4), LONGEST_SINGLE)", "MBIT's matrix may be inputs"),
        ("MBIT without constant", "MBIT: Rule(POINTER, (3, 4, 9)", "MBIT: Rule(POINTER, (3, 4)", "MBIT's pointer may not be a constant"),
        ("MBIT with coils", "MBIT: Rule(POINTER, (3, 4, 9)", "MBIT: Rule(POINTER, (0, 3, 4, 9)", "MBIT's pointer may be coils"),
        ("SENS without constant", "SENS: Rule(POINTER, (3, 4, 9)", "SENS: Rule(POINTER, (3, 4)", "SENS's pointer may not be a constant"),
        ("SENS as MBIT", "MATRIX, (0, 1, 3, 4), LONGEST_SINGLE)", "MATRIX, (0, 4), LONGEST_SINGLE)", "SENS's matrix may not be inputs")):
    reading(name, wrong, row, wrong_row)
reading("code 9", "input code 9 is known", "(code > 8, 9)", "(code > 9, 9)")
reading("numbers of 0 and 1", "the number after codes 0 and 1 is not looked at", "return number != 0", "return False")
reading("number of always", "the number after code 1 is not looked at", "return number != 0", "return code == 0 and number != 0")
reading("contact 0", "contact 0 of a coil is allowed", "number == 0 or number > 16 * sizes[COILS]", "number > 16 * sizes[COILS]")
reading("input 0", "contact 0 of a discrete input is allowed", "number == 0 or number > 16 * sizes[INPUTS]", "number > 16 * sizes[INPUTS]")
reading("contact past by one", "the contact after a coil area's last is allowed", "number > 16 * sizes[COILS]", "number > 16 * sizes[COILS] + 1")
reading("last contact", "the last contact of a coil area is refused", "number > 16 * sizes[COILS]", "number >= 16 * sizes[COILS]")
reading("last input", "the last contact of the discrete inputs is refused", "number > 16 * sizes[INPUTS]", "number >= 16 * sizes[INPUTS]")
reading("contact in words", "contacts are held against the area's words", "number > 16 * sizes[COILS]", "number > sizes[COILS]")
reading("input in coils", "contacts of discrete inputs are held against the coils", "number > 16 * sizes[INPUTS]", "number > 16 * sizes[COILS]")
reading("block 0", "block 0 is allowed", "number == 0 or number >= k", "number >= k")
reading("block itself", "a block may read its own output", "number == 0 or number >= k", "number == 0 or number > k")
reading("coil past by one", "the coil after the last is allowed", "coil > 16 * sizes[COILS]", "coil > 16 * sizes[COILS] + 1")
reading("last coil", "the last coil is refused", "coil > 16 * sizes[COILS]", "coil and coil >= 16 * sizes[COILS]")
reading("coil in words", "coils are held against the area's words", "coil > 16 * sizes[COILS]", "coil > sizes[COILS]")
reading("coil 0", "coil 0 is refused", "coil > 16 * sizes[COILS]", "coil == 0 or coil > 16 * sizes[COILS]")
reading("image short", "the image count may be over the sum", "count != sum(sizes.values())", "count < sum(sizes.values())")
reading("image long", "the image count may be under the sum", "count != sum(sizes.values())", "count > sum(sizes.values())")
reading("run count", "the run's count is not looked at", "(count != 1, 2)", "(False, 2)")
reading("areas count", "a count over 5 is as 4", "(count not in (4, 5), 2)", "(count < 4, 2)")

# -------------------------------------------------------------------------------------------------
part("the scan")

reading("previous scan", "an output is taken from the scan before",
        "run_block(block, table, outputs))",
        "run_block(block, table, scan.last if number > 1 else [[0, 0, 0]] * len(blocks)))",
        "    return lines\n\n\n# \"All a block reads", "    scan.last = outputs\n    return lines\n\n\n# \"All a block reads")
reading("contacts at start", "contacts show the table as it was at the scan's start",
        "    outputs = []\n    lines = []\n", "    outputs = []\n    lines = []\n    scan.before = {area: list(table[area]) for area in AREAS}\n",
        "power(given, table, outputs) for", "power(given, scan.before, outputs) for")
reading("coils at end", "coils are written at the scan's end",
        "    outputs = []\n    lines = []\n", "    outputs = []\n    lines = []\n    scan.late = []\n",
        "            write_coil(table, coil, output)\n", "            scan.late.append((coil, output))\n",
        "    return lines\n\n\n# \"All a block reads",
        "    for coil, output in scan.late:\n        write_coil(table, coil, output)\n    return lines\n\n\n# \"All a block reads")
reading("coils backwards", "coils are written bottom, middle, top",
        "zip(block.coils, outputs_now)", "reversed(list(zip(block.coils, outputs_now)))")
reading("coils first", "coils are written before the destination",
        "    if work.destination is not None:\n",
        "    for coil, output in zip(block.coils, outputs_now):\n        if coil != 0:\n            write_coil(table, coil, output)\n"
        "    if work.destination is not None:\n",
        "    for coil, output in zip(block.coils, outputs_now):\n        if coil != 0:\n            write_coil(table, coil, output)\n\n", "\n")
reading("coils with power", "coils are not written without power on top", "        if coil != 0:\n", "        if coil != 0 and outputs_now[0]:\n")
reading("coils only on", "a coil is set by power and never cleared", "        if coil != 0:\n", "        if coil != 0 and output:\n")
reading("top coil only", "only the top output's coil is written", "zip(block.coils, outputs_now)", "zip(block.coils[:1], outputs_now)")
reading("pointer first", "the pointer is written before the destination",
        "    if work.destination is not None:\n",
        "    if work.pointer is not None:\n        write_register(table, pointer_node(block).number, work.pointer)\n"
        "    if work.destination is not None:\n",
        "    if work.pointer is not None:\n        write_register(table, pointer_node(block).number, work.pointer)\n    for",
        "    for")
reading("coil contacts swapped", "open and closed contacts of coils are swapped",
        "return open_contact(discrete(table, COILS", "return 1 - open_contact(discrete(table, COILS",
        "return closed_contact(discrete(table, COILS", "return 1 - closed_contact(discrete(table, COILS")
reading("input contacts swapped", "open and closed contacts of discrete inputs are swapped",
        "return open_contact(discrete(table, INPUTS", "return 1 - open_contact(discrete(table, INPUTS",
        "return closed_contact(discrete(table, INPUTS", "return 1 - closed_contact(discrete(table, INPUTS")
reading("contact areas swapped", "codes 4 and 5 read coils where they can",
        "return open_contact(discrete(table, INPUTS", "return open_contact(discrete(table, COILS if given.number <= len(table[COILS]) else INPUTS")
reading("levels swapped", "codes 7 and 8 are bottom and middle", "[given.code - 6]", "[(0, 2, 1)[given.code - 6]]")
reading("blocks from 0", "earlier blocks are numbered from 0", "outputs[given.number - 1]", "outputs[min(given.number, len(outputs) - 1)]")
reading("never and always", "codes 0 and 1 are swapped", "    if given.code == 0:\n        return 0\n", "    if given.code == 0:\n        return 1\n",
        "    if given.code == 1:\n        return 1\n", "    if given.code == 1:\n        return 0\n")
reading("top output", "the top output is off when the pointer is over 16n",
        "[powers[0], work.middle, work.bottom]", "[powers[0] & (1 - (work.bottom & (block.kind != CMPR))), work.middle, work.bottom]")
reading("first block only", "only the first block of a scan works",
        "    work = WORK[block.kind](read_all(block, table, powers))\n",
        "    work = WORK[block.kind](read_all(block, table, powers)) if not outputs else NOTHING\n")
reading("scans repeated", "the first scan's lines are given for each later scan",
        "        lines.extend(scan(blocks, table, number))\n",
        "        first = scan(blocks, table, 1) if number == 1 else first\n"
        "        lines.extend(\"%d %s\" % (number, text.split(\" \", 1)[1]) for text in first)\n")
reading("table kept", "a block leaves the table as it found it", "    write_all(block, table, work, outputs_now)\n", "")
reading("table fresh", "each scan starts from the image",
        "        lines.extend(scan(blocks, table, number))\n",
        "        lines.extend(scan(blocks, {area: list(table[area]) for area in AREAS}, number))\n")
reading("refuses all", "every file is refused", "    words = Words(data)\n", "    words = Words(data)\n    raise Refused(2, 1)\n")
reading("outputs constant", "middle and bottom outputs are always off",
        "[powers[0], work.middle, work.bottom]", "[powers[0], 0, 0]")

# -------------------------------------------------------------------------------------------------
part("logic blocks")

for kind, sign in (("AND", "&"), ("OR", "|"), ("XOR", "^")):
    body = "[a %s b for a, b in zip(read.source, read.second)]" % sign
    reading("%s unpowered" % kind, "%s works without power" % kind,
            "        return NOTHING\n    return Work(0, 0, %s" % body, "        pass\n    return Work(0, 0, %s" % body)
    reading("%s middle" % kind, "%s's middle output shows a result that is not 0" % kind,
            "Work(0, 0, %s" % body, "Work(max(%s), 0, %s" % (body, body))
    reading("%s bottom" % kind, "%s's bottom output shows a result that is not 0" % kind,
            "Work(0, 0, %s" % body, "Work(0, max(%s), %s" % (body, body))
    reading("%s first word" % kind, "%s works on one word alone" % kind, body, body.replace("read.second)", "read.second[:16])"))
reading("AND as OR", "AND gives OR", "[a & b for", "[a | b for")
reading("OR as XOR", "OR gives XOR", "[a | b for", "[a ^ b for")
reading("XOR as OR", "XOR gives OR", "[a ^ b for", "[a | b for")
reading("COMP copies", "COMP copies the source", "[1 - a for a in read.source]", "[a for a in read.source]")
reading("COMP of destination", "COMP takes its destination's bits", "[1 - a for a in read.source]", "[1 - a for a in read.second]")
reading("COMP unpowered", "COMP works without power",
        "        return NOTHING\n    return Work(0, 0, [1 - a", "        pass\n    return Work(0, 0, [1 - a")
reading("COMP last word", "COMP leaves the last word", "[1 - a for a in read.source]", "[1 - a for a in read.source[:-16]]")

IN_PLACE = """    if work.destination is not None and block.kind in (%s):
        to, at = first_bit(block.middle.class_, block.middle.number), first_bit(block.top.class_, block.top.number)
        for i in %s:
            a, b = table[block.top.class_][at + i], table[block.middle.class_][to + i]
            table[block.middle.class_][to + i] = {AND: a & b, OR: a | b, XOR: a ^ b, COMP: 1 - a}[block.kind]
    elif work.destination is not None:
"""
WRITES = "    if work.destination is not None:\n"
for kind in ("AND", "OR", "XOR", "COMP"):
    reading("%s in place" % kind, "an overlapping destination is built from bits just written, upwards",
            WRITES, IN_PLACE % (kind + ",", "range(16 * block.n)"))
    reading("%s in place down" % kind, "an overlapping destination is built from bits just written, downwards",
            WRITES, IN_PLACE % (kind + ",", "reversed(range(16 * block.n))"))

# -------------------------------------------------------------------------------------------------
part("BROT")

reading("BROT direction", "power on middle means right",
        "    if read.middle:\n        return Work(left, 0, read.source[1:]", "    if not read.middle:\n        return Work(left, 0, read.source[1:]",
        "read.source[0] if read.middle else read.source[-1]", "read.source[-1] if read.middle else read.source[0]")
reading("BROT bit kept", "the bit that left is taken from the other end",
        "read.source[0] if read.middle else read.source[-1]", "read.source[-1] if read.middle else read.source[0]")
reading("BROT shown bit", "the middle output is the bit that enters, to the right",
        "return Work(left, 0, [enters]", "return Work(enters, 0, [enters]")
reading("BROT shown bit left", "the middle output is the bit that enters, to the left",
        "return Work(left, 0, read.source[1:]", "return Work(enters, 0, read.source[1:]")
reading("BROT wraps", "the bit that leaves always enters", "    if read.bottom:\n        return left\n", "    if True:\n        return left\n")
reading("BROT never wraps", "0 always enters", "    if read.bottom:\n        return left\n", "    if False:\n        return left\n")
reading("BROT wrap swapped", "power on bottom lets 0 enter", "    if read.bottom:\n        return left\n", "    if not read.bottom:\n        return left\n")
reading("BROT enters 1", "1 enters without wrap", "        return left\n    return 0\n", "        return left\n    return 1\n")
reading("BROT destination", "the destination's own bits are moved",
        "    enters = brot_enters(read, left)\n",
        "    read = read._replace(source=read.second)\n    left = read.source[0] if read.middle else read.source[-1]\n    enters = brot_enters(read, left)\n")
reading("BROT bottom", "the bottom output shows the bit that left", "return Work(left, 0, [enters]", "return Work(left, left, [enters]")
reading("BROT unpowered", "BROT works without power", "        return NOTHING\n    left = ", "        pass\n    left = ")
reading("BROT words apart", "each word is rotated by itself, without its neighbour's bit",
        "    enters = brot_enters(read, left)\n",
        "    enters = brot_enters(read, left)\n"
        "    if not read.middle:\n"
        "        words = [read.source[i : i + 16] for i in range(0, read.size, 16)]\n"
        "        return Work(left, 0, [bit for word in words for bit in [enters] + word[:-1]], None)\n")
BROT_IN_PLACE = """    if work.destination is not None and block.kind == BROT:
        to, at = first_bit(block.middle.class_, block.middle.number), first_bit(block.top.class_, block.top.number)
        size, left = 16 * block.n, BROT_LEFT[0]
        for word in %s:
            for i in (range(16 * word, 16 * word + 16) if left else reversed(range(16 * word, 16 * word + 16))):
                away = i + 1 if left else i - 1
                inside = 0 <= away < size
                table[block.middle.class_][to + i] = table[block.top.class_][at + away] if inside else work.destination[i]
    elif work.destination is not None:
"""
NOTE_LEFT = ("    left = read.source[0] if read.middle", "    BROT_LEFT[0] = read.middle\n    left = read.source[0] if read.middle")
reading("BROT in place", "an overlapping destination is built from words just written, upwards",
        WRITES, BROT_IN_PLACE % "range(block.n)", *NOTE_LEFT, "NOTHING = Work(0, 0, None, None)", "NOTHING = Work(0, 0, None, None)\nBROT_LEFT = [0]")
reading("BROT in place down", "an overlapping destination is built from words just written, downwards",
        WRITES, BROT_IN_PLACE % "reversed(range(block.n))", *NOTE_LEFT, "NOTHING = Work(0, 0, None, None)", "NOTHING = Work(0, 0, None, None)\nBROT_LEFT = [0]")

# -------------------------------------------------------------------------------------------------
part("CMPR")

reading("CMPR at pointer", "the search starts at the pointer's position", "range(pointer + 1, len", "range(max(1, pointer), len")
reading("CMPR last bit", "the last position is not compared", "range(pointer + 1, len(source) + 1)", "range(pointer + 1, len(source))")
reading("CMPR end waits", "a last bit that differs counts as the end: middle off",
        "    return Work(1, read.source[position - 1]", "    return Work(0 if position == read.size else 1, read.source[position - 1]")
reading("CMPR at 16n", "a pointer of 16n is not taken back to 0", "    if pointer >= read.size:\n", "    if pointer > read.size:\n")
reading("CMPR over 16n", "a pointer over 16n is not taken back to 0", "    if pointer >= read.size:\n", "    if pointer == read.size:\n")
reading("CMPR at 16n-1", "a pointer of 16n-1 counts as 0 too", "    if pointer >= read.size:\n", "    if pointer >= read.size - 1:\n")
reading("CMPR none 0", "none found gives 0", "Work(0, 0, None, read.size,", "Work(0, 0, None, 0,")
reading("CMPR none 16n+1", "none found gives 16n+1, as in the older 184/384", "Work(0, 0, None, read.size,", "Work(0, 0, None, read.size + 1,")
reading("CMPR none keeps", "none found leaves the pointer", "Work(0, 0, None, read.size,", "Work(0, 0, None, reset,")
reading("CMPR none on", "none found gives middle on", "Work(0, 0, None, read.size,", "Work(1, 0, None, read.size,")
reading("CMPR wraps", "none found above the pointer: the search goes on from the start",
        "            return position\n    return None\n", "            return position\n    return differing(source, second, 0) if pointer else None\n")
reading("CMPR bottom", "the bottom output shows the second matrix's bit", "return Work(1, read.source[position - 1]", "return Work(1, read.second[position - 1]")
reading("CMPR bottom on", "the bottom output is on with every miscompare", "return Work(1, read.source[position - 1]", "return Work(1, 1")
reading("CMPR bottom none", "the bottom output is on at the end", "Work(0, 0, None, read.size,", "Work(0, 1, None, read.size,")
reading("CMPR reset powered", "the reset needs power on top", "    if read.middle:\n        return 0\n    return None\n", "    if read.middle and read.top:\n        return 0\n    return None\n")
reading("CMPR reset unpowered", "the reset acts only without power on top", "    if read.middle:\n        return 0\n    return None\n", "    if read.middle and not read.top:\n        return 0\n    return None\n")
reading("CMPR reset to 1", "the reset gives 1", "    if read.middle:\n        return 0\n    return None\n", "    if read.middle:\n        return 1\n    return None\n")
reading("CMPR reset alone", "a reset scan does not compare", "    position = differing(",
        "    if reset is not None:\n        return Work(0, 0, None, reset)\n    position = differing(")
reading("CMPR reset after", "the reset comes after the compare",
        "    return Work(1, read.source[position - 1], None, position,", "    return Work(1, read.source[position - 1], None, position if reset is None else 0,")
reading("CMPR reset by bottom", "the bottom input resets", "    if read.middle:\n        return 0\n    return None\n", "    if read.bottom:\n        return 0\n    return None\n")
reading("CMPR unpowered range", "a pointer over 16n is taken to 0 without power too",
        "        return Work(0, 0, None, reset)\n    start", "        return Work(0, 0, None, reset if read.pointer < read.size else 0)\n    start")
reading("CMPR reset in matrix", "the reset acts on a matrix word that holds the pointer",
        "    work = WORK[block.kind](", "    if block.kind == CMPR and powers[1]:\n        write_register(table, block.middle.number, 0)\n    work = WORK[block.kind](")
reading("CMPR step in matrix", "the pointer's range acts on a matrix word that holds it",
        "    work = WORK[block.kind](",
        "    if block.kind == CMPR and powers[0] and register(table, 4, block.middle.number) >= 16 * block.n:\n"
        "        write_register(table, block.middle.number, 0)\n    work = WORK[block.kind](")
reading("CMPR matrix at pointer", "CMPR's matrix starts at the pointer's register", "return block.middle.number + 1", "return block.middle.number")
reading("CMPR from 0", "positions count from 0", "    return Work(1, read.source[position - 1], None, position,", "    return Work(1, read.source[position - 1], None, position - 1,")

# -------------------------------------------------------------------------------------------------
part("the count")

# Where the count is from, how it is made, of a miscompare and of none, without power, and in the record of every block.
COUNT_FROM = "    start = cmpr_start(read, reset)\n    position = differing(read.source, read.second, start)\n"
COUNT = "    return reached - start\n"
COUNT_FOUND, COUNT_NONE = "examined(start, position))", "examined(start, read.size))"
COUNT_OFF = "        return Work(0, 0, None, reset)\n    start"
COUNT_RECORD = "    return Record(*outputs_now, work.count)\n"
COUNT_FIELDS = "pointer, record.count]"


def count_from(name, wrong, start):
    """A reading whose count is from another pointer; a count under 0 is as a word has it."""
    reading(name, wrong, COUNT_FROM, "    start = %s\n    position = differing(read.source, read.second, cmpr_start(read, reset))\n" % start,
            COUNT, "    return (reached - start) % 65536\n")


count_from("count before reset", "the count is from the pointer before the reset", "cmpr_start(read, None)")
count_from("count before wrap", "the count is from the pointer before the wrap", "read.pointer if reset is None else reset")
count_from("count before both", "the count is the pointer's change", "read.pointer")
count_from("count at 16n", "the count does not take a pointer of 16n back to 0",
           "read.pointer if read.pointer == read.size and reset is None else cmpr_start(read, reset)")
count_from("count over 16n", "the count does not take a pointer over 16n back to 0",
           "read.pointer if read.pointer > read.size and reset is None else cmpr_start(read, reset)")
count_from("count from the rest", "the count of a pointer over 16n is from its remainder", "(read.pointer if reset is None else reset) % read.size")
count_from("count from 1", "position 1 is not counted", "max(1, cmpr_start(read, reset))")
reading("count reached", "the count is the position reached", COUNT, "    return reached\n")
reading("count one less", "the position reached is not counted", COUNT, "    return reached - start - 1\n")
reading("count one more", "the pointer's own position is counted too", COUNT, "    return reached - start + 1\n")
reading("count of agreeing", "a pair that differs is not counted", COUNT_FOUND, "examined(start, position) - 1)")
reading("count of differing", "only a pair that differs is counted", COUNT_FOUND, "1)", COUNT_NONE, "0)")
reading("count of all differing", "every pair of the matrices that differs is counted",
        COUNT_FOUND, "sum(a != b for a, b in zip(read.source, read.second)))",
        COUNT_NONE, "sum(a != b for a, b in zip(read.source, read.second)))")
reading("count of words", "words are counted", COUNT, "    return (reached + 15) // 16 - start // 16\n")
reading("count by words", "every pair of a word that was read is counted", COUNT, "    return (reached + 15) // 16 * 16 - start // 16 * 16\n")
reading("count of 16n", "every compare with power counts 16n", COUNT_FOUND, "read.size)", COUNT_NONE, "read.size)")
reading("count to the end", "a miscompare counts the pairs to the end", COUNT_FOUND, "examined(start, read.size))")
reading("count none 0", "none found counts 0", COUNT_NONE, "0)")
reading("count none 16n", "none found counts 16n from any pointer", COUNT_NONE, "read.size)")
reading("count none one less", "none found counts to 16n-1", COUNT_NONE, "examined(start, read.size - 1))")
reading("count none one more", "none found counts to 16n+1, as in the older 184/384", COUNT_NONE, "examined(start, read.size + 1))")
reading("count last bit", "a miscompare at the last bit counts 0, as an end", COUNT_FOUND, "examined(start, position) if position < read.size else 0)")
reading("count reset 0", "a compare with a reset counts 0", COUNT_FOUND, "examined(start, position) if reset is None else 0)",
        COUNT_NONE, "examined(start, read.size) if reset is None else 0)")
reading("count in 8 bits", "the count goes to 255", COUNT, "    return (reached - start) % 256\n")
reading("count in 10 bits", "the count goes to 1023", COUNT, "    return (reached - start) % 1024\n")
reading("count unpowered", "a compare without power counts as one with power", COUNT_OFF,
        "        reached = differing(read.source, read.second, cmpr_start(read, reset))\n"
        "        return Work(0, 0, None, reset, examined(cmpr_start(read, reset), reached or read.size))\n    start")
reading("count unpowered rest", "a compare without power counts the pairs above its pointer", COUNT_OFF,
        "        return Work(0, 0, None, reset, examined(cmpr_start(read, reset), read.size))\n    start")
reading("count reset unpowered", "a reset without power counts the positions that it goes back", COUNT_OFF,
        "        return Work(0, 0, None, reset, 0 if reset is None else read.pointer)\n    start")
reading("count reset unpowered 1", "a reset without power counts 1", COUNT_OFF, "        return Work(0, 0, None, reset, read.middle)\n    start")
COUNT_KEPT = "    outputs = []\n    lines = []\n", "    outputs = []\n    lines = []\n    scan.counts = scan.counts if number > 1 else [0] * len(blocks)\n"
COUNT_RAN = "        outputs.append(run_block(block, table, outputs))\n"
reading("count kept", "a compare without power shows its last count", *COUNT_KEPT, COUNT_RAN,
        COUNT_RAN + "        if outputs[-1].top:\n            scan.counts[len(outputs) - 1] = outputs[-1].count\n"
        "        outputs[-1] = outputs[-1]._replace(count=scan.counts[len(outputs) - 1])\n")
reading("count late", "a compare shows the count of the scan before", *COUNT_KEPT, COUNT_RAN,
        COUNT_RAN + "        scan.counts.append(outputs[-1].count)\n        outputs[-1] = outputs[-1]._replace(count=scan.counts.pop(0))\n")
reading("count summed", "the counts of the scans are added up", *COUNT_KEPT, COUNT_RAN,
        COUNT_RAN + "        scan.counts[len(outputs) - 1] += outputs[-1].count\n"
        "        outputs[-1] = outputs[-1]._replace(count=scan.counts[len(outputs) - 1])\n")
reading("count of the scan", "the counts of a scan's blocks are added up", COUNT_RECORD,
        "    return Record(*outputs_now, work.count + (outputs[-1].count if outputs else 0))\n")
for kind in ("AND", "OR", "XOR", "COMP", "MBIT", "SENS", "BROT"):
    reading("%s counts" % kind, "%s with power counts 16n" % kind, COUNT_RECORD,
            "    return Record(*outputs_now, 16 * block.n if block.kind == %s and powers[0] else work.count)\n" % kind)
for kind in ("MBIT", "SENS"):
    reading("%s counts 1" % kind, "%s counts the bit at its pointer" % kind, COUNT_RECORD,
            "    return Record(*outputs_now, 1 if block.kind == %s and powers[0] and not work.bottom else work.count)\n" % kind)
reading("count before pointer", "the count is the sixth field, the pointer the seventh", COUNT_FIELDS, "record.count, pointer]")
reading("no count", "there is no seventh field", COUNT_FIELDS, "pointer]")
reading("count of compares only", "other kinds have no seventh field", COUNT_RECORD,
        "    return Record(*outputs_now, work.count if block.kind == CMPR else None)\n",
        COUNT_FIELDS, COUNT_FIELDS + "[: 6 if record.count is None else 7]")
reading("count as dash", "other kinds print - as their count", COUNT_RECORD,
        "    return Record(*outputs_now, work.count if block.kind == CMPR else \"-\")\n")
reading("count as dash unpowered", "a compare without power prints - as its count", COUNT_RECORD,
        "    return Record(*outputs_now, work.count if powers[0] or block.kind != CMPR else \"-\")\n")

# -------------------------------------------------------------------------------------------------
part("MBIT")

MBIT_OFF = "        return NOTHING\n    if read.pointer > read.size"
MBIT_OVER = "        return Work(read.middle, 1, None, None)"
MBIT_0 = "        return Work(read.middle, 0, None, increased)"
MBIT_DONE = "    return Work(read.middle, 0, mbit_matrix(read), increased)"
reading("MBIT sense", "power on middle clears the bit", "matrix[read.pointer - 1] = read.middle", "matrix[read.pointer - 1] = 1 - read.middle")
reading("MBIT never clears", "without power on middle the bit stays",
        "matrix[read.pointer - 1] = read.middle", "matrix[read.pointer - 1] |= read.middle")
reading("MBIT next bit", "the bit after the pointer is set",
        "matrix[read.pointer - 1] = read.middle", "matrix[read.pointer % read.size] = read.middle")
reading("MBIT middle changed", "middle is on only when the bit was 0 before",
        MBIT_DONE, MBIT_DONE.replace("read.middle", "read.middle & (1 - read.second[read.pointer - 1])"))
reading("MBIT middle bit before", "the middle output is the bit as it was", MBIT_DONE, MBIT_DONE.replace("read.middle", "read.second[read.pointer - 1]"))
reading("MBIT middle done", "middle is on when a bit was written", MBIT_DONE, MBIT_DONE.replace("read.middle", "1"))
reading("MBIT middle over off", "middle is off over 16n (document 01)", MBIT_OVER, MBIT_OVER.replace("read.middle", "0"))
reading("MBIT middle over on", "middle is on over 16n whatever the input", MBIT_OVER, MBIT_OVER.replace("read.middle", "1"))
reading("MBIT middle at 0 off", "middle is off at pointer 0 (document 01)", MBIT_0, MBIT_0.replace("read.middle", "0"))
reading("MBIT middle at 0 on", "middle is on at pointer 0 whatever the input", MBIT_0, MBIT_0.replace("read.middle", "1"))
reading("MBIT middle unpowered", "middle copies the middle input without power",
        MBIT_OFF, MBIT_OFF.replace("NOTHING", "Work(read.middle, 0, None, None)"))
reading("MBIT bottom unpowered", "bottom shows a pointer over 16n without power",
        MBIT_OFF, MBIT_OFF.replace("NOTHING", "Work(0, int(read.pointer > read.size), None, None)"))
reading("MBIT unpowered", "MBIT works without power", MBIT_OFF, MBIT_OFF.replace("return NOTHING", "pass"))
reading("MBIT over off", "bottom is off over 16n", MBIT_OVER, MBIT_OVER.replace("1, None", "0, None"))
reading("MBIT over at 16n", "16n counts as over", "    if read.pointer > read.size:\n", "    if read.pointer >= read.size:\n")
reading("MBIT over set", "over 16n the pointer is set to 16n (002's other sentence)",
        MBIT_OVER, MBIT_OVER.replace("None)", "read.size if read.moves else None)"))
reading("MBIT over to 1", "over 16n the pointer is increased to 1",
        MBIT_OVER, MBIT_OVER.replace("None)", "1 if read.moves and read.bottom else None)"))
reading("MBIT over increases", "over 16n the pointer is increased all the same",
        MBIT_OVER, MBIT_OVER.replace("None)", "(read.pointer + 1) % 65536 if read.moves and read.bottom else None)"))
reading("MBIT 0 over", "bottom is on at pointer 0", MBIT_0, MBIT_0.replace("0, None", "1, None"))
reading("MBIT 0 stays", "a pointer of 0 is not increased", MBIT_0, MBIT_0.replace("increased", "None"))
reading("MBIT 0 is 1", "a pointer of 0 touches bit 1", MBIT_0, MBIT_0.replace("None", "[read.middle] + read.second[1:]"))
reading("MBIT 0 is 16n", "a pointer of 0 touches the last bit", MBIT_0, MBIT_0.replace("None", "read.second[:-1] + [read.middle]"))
reading("MBIT increase first", "the increase comes before the work",
        "    if read.pointer == 0:\n" + MBIT_0,
        "    if increased is not None:\n        read = read._replace(pointer=increased)\n    if read.pointer == 0:\n" + MBIT_0)
reading("MBIT increase unpowered", "the increase needs no power on top",
        MBIT_OFF,
        MBIT_OFF.replace("NOTHING", "Work(0, 0, None, increase(read.pointer, read) if read.bottom and read.moves and read.pointer <= read.size else None)"))
reading("MBIT always increases", "the increase needs no power on bottom", "if read.bottom and read.moves else None\n    if read.pointer == 0", "if read.moves else None\n    if read.pointer == 0")
reading("MBIT by middle", "the middle input increases", "if read.bottom and read.moves else None\n    if read.pointer == 0", "if read.middle and read.moves else None\n    if read.pointer == 0")
reading("MBIT writes pointer", "the pointer is written back when it is not increased",
        "if read.bottom and read.moves else None\n    if read.pointer == 0", "if read.bottom and read.moves else (read.pointer if read.moves else None)\n    if read.pointer == 0")
reading("MBIT pointer from matrix", "the increase takes the pointer as the matrix write left it",
        "        write_register(table, pointer_node(block).number, work.pointer)\n",
        "        fresh = block.kind == MBIT and work.pointer > 1\n"
        "        written = register(table, HOLDING, pointer_node(block).number) + 1 if fresh else work.pointer\n"
        "        write_register(table, pointer_node(block).number, written)\n")

# -------------------------------------------------------------------------------------------------
part("SENS")

SENS_OVER = "        return Work(0, 1, None, None)\n    sensed"
SENS_END = "increase(pointer, read) if read.middle and read.moves else reset)"
SENS_OFF = "        return Work(0, 0, None, reset)\n    pointer = "
SENS_RESET = "    if read.bottom and read.moves:\n        return 1\n"
reading("SENS copies input", "middle copies the middle input (002's summary table)", "return Work(sensed, 0, None, increase", "return Work(read.middle, 0, None, increase")
reading("SENS middle over", "middle copies the middle input over 16n, as MBIT's does (02)", SENS_OVER, SENS_OVER.replace("Work(0", "Work(read.middle"))
reading("SENS middle at 0", "middle copies the middle input at pointer 0, as MBIT's does (02)",
        "sensed = 0 if pointer == 0", "sensed = read.middle if pointer == 0")
reading("SENS opposite", "middle is the opposite of the bit", "return Work(sensed, 0, None, increase", "return Work(1 - sensed if pointer else 0, 0, None, increase")
reading("SENS next bit", "the bit after the pointer is sensed", "read.second[pointer - 1]\n", "read.second[pointer % read.size]\n")
reading("SENS 0 is 1", "a pointer of 0 senses bit 1", "sensed = 0 if pointer == 0 else read.second[pointer - 1]", "sensed = read.second[max(pointer, 1) - 1]")
reading("SENS 0 is 16n", "a pointer of 0 senses the last bit", "sensed = 0 if pointer == 0 else read.second[pointer - 1]", "sensed = read.second[pointer - 1]")
reading("SENS 0 over", "bottom is on at pointer 0", "return Work(sensed, 0, None, increase", "return Work(sensed, int(pointer == 0), None, increase")
reading("SENS over off", "bottom is off over 16n", SENS_OVER, SENS_OVER.replace("0, 1", "0, 0"))
reading("SENS over at 16n", "16n counts as over", "    if pointer > read.size:\n", "    if pointer >= read.size:\n")
reading("SENS over set", "over 16n the pointer is set to 16n", SENS_OVER, "        return Work(0, 1, None, read.size if read.moves else None)\n    sensed")
reading("SENS over to 1", "over 16n the pointer is increased to 1", SENS_OVER, "        return Work(0, 1, None, 1 if read.moves and read.middle else None)\n    sensed")
reading("SENS bottom unpowered", "bottom shows a pointer over 16n without power",
        SENS_OFF, "        return Work(0, int(read.pointer > read.size), None, reset)\n    pointer = ")
reading("SENS unpowered", "SENS works without power", SENS_OFF, "        pass\n    pointer = ")
reading("SENS reset powered", "the reset needs power on top", SENS_RESET, SENS_RESET.replace("read.moves", "read.moves and read.top"))
reading("SENS reset to 0", "the reset gives 0", SENS_RESET, SENS_RESET.replace("return 1", "return 0"))
reading("SENS reset after", "the reset comes after the work",
        "    pointer = read.pointer if reset is None else reset\n    if pointer > read.size",
        "    pointer = read.pointer\n    if pointer > read.size", "increase(pointer, read) if read.middle and read.moves else reset)",
        "reset if reset is not None else increase(pointer, read) if read.middle and read.moves else None)",
        SENS_OVER, "        return Work(0, 1, None, reset)\n    sensed")
reading("SENS reset wins", "a reset pointer is not increased", SENS_END, "increase(pointer, read) if read.middle and read.moves and reset is None else reset)")
reading("SENS reset of all", "the reset counts for input registers and constants too, for the work",
        "    pointer = read.pointer if reset is None else reset\n    if pointer > read.size", "    pointer = 1 if read.bottom else read.pointer\n    if pointer > read.size")
reading("SENS reset in matrix", "the reset acts on a matrix word that holds the pointer",
        "    work = WORK[block.kind](",
        "    if block.kind == SENS and powers[2] and block.top.class_ == HOLDING:\n"
        "        write_register(table, block.top.number, 1)\n    work = WORK[block.kind](")
reading("SENS inputs swapped", "middle resets and bottom increases", SENS_RESET, SENS_RESET.replace("bottom", "middle"), SENS_END, SENS_END.replace("middle", "bottom"))
reading("SENS increase first", "the increase comes before the work",
        "    if pointer > read.size:\n        return Work(0, 1, None, None)\n",
        "    if pointer > read.size:\n        return Work(0, 1, None, None)\n"
        "    if read.middle and read.moves:\n        pointer = increase(pointer, read)\n",
        SENS_END, "pointer if read.middle and read.moves else reset)")
reading("SENS increase unpowered", "the increase needs no power on top", SENS_OFF,
        "        near = read.pointer if reset is None else reset\n"
        "        return Work(0, 0, None, increase(near, read) if read.middle and read.moves and near <= read.size else reset)\n    pointer = ")
reading("SENS always increases", "the increase needs no power on middle", SENS_END, "increase(pointer, read) if read.moves else reset)")

# -------------------------------------------------------------------------------------------------
part("pointers")

INCREASE = "    if pointer == read.size:\n        return 1\n    return pointer + 1\n"
reading("16n to 0", "the increase takes 16n to 0", INCREASE, INCREASE.replace("return 1\n", "return 0\n"))
reading("16n to 16n+1", "the increase takes 16n to 16n+1", INCREASE, "    return pointer + 1\n")
reading("16n-1 to 1", "the increase takes 16n-1 to 1", INCREASE, INCREASE.replace("pointer == read.size", "pointer >= read.size - 1"))
reading("16n stays", "the increase leaves 16n", INCREASE, INCREASE.replace("return 1\n", "return pointer\n"))
reading("decrease", "the increase takes 1 away", INCREASE, "    return max(pointer - 1, 0)\n")
MOVES = "place is not None and place.class_ == HOLDING"
reading("class 3 steps", "a pointer in an input register is reset and increased",
        MOVES, "place is not None and place.class_ in (INPUT_REGISTERS, HOLDING)",
        "        write_register(table, pointer_node(block).number, work.pointer)\n",
        "        write_matrix(table, pointer_node(block).class_, pointer_node(block).number, bits_of(work.pointer))\n")
reading("constant steps", "a constant is increased in the holding register of its number",
        MOVES, "place is not None and (place.class_ == HOLDING or place.class_ == CONSTANT and 1 <= place.number <= len(table[HOLDING]) // 16)")
reading("no pointer moves", "a pointer is never written", "    if work.pointer is not None:\n", "    if False:\n")

# -------------------------------------------------------------------------------------------------
part("the lines")

reading("pointer before", "the pointer is printed as it was before the block",
        "        outputs.append(run_block(block, table, outputs))\n", "        before = shown_pointer(block, table)\n        outputs.append(run_block(block, table, outputs))\n",
        "outputs[-1], shown_pointer(block, table))", "outputs[-1], before)")
reading("pointer at scan's end", "the pointer is printed as the scan leaves it",
        "        lines.append(line(number, len(outputs), outputs[-1], shown_pointer(block, table)))\n    return lines\n",
        "    for k, block in enumerate(blocks):\n"
        "        lines.append(line(number, k + 1, outputs[k], shown_pointer(block, table)))\n    return lines\n")
reading("pointer as given", "the pointer printed is the one its rule gives, without the matrix write",
        "    write_all(block, table, work, outputs_now)\n",
        "    given = None if pointer_node(block) is None else pointer_value(pointer_node(block), table)\n"
        "    write_all(block, table, work, outputs_now)\n"
        "    run_block.shown = given if work.pointer is None else work.pointer\n",
        "outputs[-1], shown_pointer(block, table))", "outputs[-1], \"-\" if run_block.shown is None else run_block.shown)")
reading("constant as dash", "a constant prints -", "    return \"-\" if place is None else", "    return \"-\" if place is None or place.class_ == CONSTANT else")
reading("dash as 0", "kinds without a pointer print 0", "    return \"-\" if place is None else", "    return 0 if place is None else")
reading("blocks from 0 in lines", "blocks are printed from 0", "line(number, len(outputs), outputs[-1]", "line(number, len(outputs) - 1, outputs[-1]")
reading("scans from 0 in lines", "scans are printed from 0", "line(number, len(outputs), outputs[-1]", "line(number - 1, len(outputs), outputs[-1]")
reading("end in blocks", "the last line gives the blocks", "\"end %d\" % scans", "\"end %d\" % len(blocks)")
reading("words of registers", "the first line counts the registers alone", "len(blocks), sum(sizes.values()))", "len(blocks), sizes[INPUT_REGISTERS] + sizes[HOLDING])")
reading("no end line", "an accepted file has no last line", "    lines.append(\"end %d\" % scans)\n", "")
