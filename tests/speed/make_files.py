#!/usr/bin/env python3
"""Makes the bench files that are timed, and small ones that are only compared: make_files.py FOLDER.

Every file is the same at every run. FOLDER/timed gets the large files, FOLDER/compared the small ones, accepted and refused.
"""
import os
import struct
import sys

KINDS = {"and": 1, "or": 2, "xor": 3, "comp": 4, "cmpr": 5, "mbit": 6, "sens": 7, "brot": 8}
LONG = ("mbit", "sens")
LIMITS = (128, 128, 512, 9999)
CLASSES = (0, 1, 3, 4)
NEVER, ALWAYS = (0, 0), (1, 0)
NO_COILS = (0, 0, 0)


class Numbers:
    """Numbers that look chosen by chance, from a seed."""

    def __init__(self, seed):
        self.state = seed

    def below(self, n):
        self.state = (self.state * 6364136223846793005 + 1442695040888963407) % 2**64
        return (self.state >> 33) % n

    def among(self, things):
        return things[self.below(len(things))]

    def words(self, count):
        return [self.below(65536) for _ in range(count)]


def record(kind, n, top, middle, inputs, coils=NO_COILS):
    return [kind, n, *top, *middle, *[w for one in inputs for w in one], *coils]


def spell(sizes, records, image, scans, level=None):
    """The words of a bench file, with the level or without it."""
    flat = [w for r in records for w in r]
    areas = [4, *sizes] if level is None else [5, *sizes, level]
    return [*areas, len(records), *flat, len(image), *image, 1, scans]


def as_bytes(words):
    return struct.pack(f">{len(words)}H", *words)


def place(k, length, first, last):
    """The k-th run of so many registers between two, starting again where there is no room."""
    return first + k % ((last - first + 1) // length) * length


# ---- one kind in all blocks, with power


def one_kind(name, n, blocks, scans, differ=True):
    """Blocks of one kind. Registers 1 to 128 are pointers, except CMPR's, which stand before their matrices."""
    kind = KINDS[name]
    numbers = Numbers(kind)
    records = []
    for k in range(blocks):
        if name == "cmpr":
            nodes = (3, 1 + k % (512 - n + 1)), (4, place(k, n + 1, 1, 9999))
            inputs = ALWAYS, NEVER, NEVER
        elif name in LONG:
            nodes = (4, 1 + k), (4, place(k, n, 129, 9999))
            inputs = ALWAYS, ALWAYS, ALWAYS if name == "mbit" else NEVER
        else:
            nodes = (4, place(2 * k, n, 129, 9999)), (4, place(2 * k + 1, n, 129, 9999))
            inputs = ALWAYS, ALWAYS, ALWAYS
        records.append(record(kind, n, *nodes, inputs))
    source = [65535 if differ else 0] * 512
    holding = [0] * 9999 if name == "cmpr" else [1] * 128 + numbers.words(9999 - 128)
    return spell((0, 0, 512, 9999), records, source + holding, scans, 2 if n > 255 else None)


# ---- all kinds together


def matrix(numbers, sizes, classes, n, extra=0):
    """A matrix of n words, and the registers beside it, somewhere in an area of one of the classes that has room."""
    sizes = dict(zip(CLASSES, sizes))
    class_ = numbers.among([c for c in classes if n + extra <= sizes[c]])
    start = numbers.below(sizes[class_] - n - extra + 1)
    return class_, 16 * start + 1 if class_ <= 1 else start + 1


def some_input(numbers, sizes, earlier, codes):
    """An input with one of the codes that can be had here."""
    most = {2: 16 * sizes[0], 3: 16 * sizes[0], 4: 16 * sizes[1], 5: 16 * sizes[1], 6: earlier, 7: earlier, 8: earlier}
    code = numbers.among([c for c in codes if most.get(c, 1)])
    return code, 1 + numbers.below(most[code]) if code in most else 0


def some_record(numbers, sizes, kind, n, earlier, constants):
    """A record of this kind: contacts, earlier outputs and coils as a network has them, mostly with power on top."""
    pointer = kind in (6, 7)
    top = matrix(numbers, sizes, (3, 4, 4) if pointer and sizes[2] else (4,) if pointer else CLASSES, 1 if pointer else n)
    if pointer and numbers.below(4) == 0:
        top = 9, numbers.below(constants)
    middle = matrix(numbers, sizes, {5: (4,), 7: CLASSES}.get(kind, (0, 4, 4, 4)), n, extra=kind == 5)
    inputs = [some_input(numbers, sizes, earlier, (0, 1, 1, 2, 3, 4, 5, 6, 7, 8)) for _ in range(3)]
    if numbers.below(4):
        inputs[0] = ALWAYS
    coils = [numbers.among((0, numbers.below(16 * sizes[0] + 1))) for _ in range(3)]
    return record(kind, n, top, middle, inputs, coils)


def mix(blocks, scans, seed=1, lengths=(1, 1, 2, 4, 4, 8, 10, 16, 32, 64, 100)):
    """All kinds in turn over the largest table, of which few words are not 0; pointers start in range."""
    numbers = Numbers(seed)
    records = [some_record(numbers, LIMITS, 1 + k % 8, numbers.among(lengths), k, 1000) for k in range(blocks)]
    image = [numbers.among((0, 0, 0, 0, 0, 0, 0, numbers.below(65536))) for _ in range(sum(LIMITS))]
    for kind, n, class_, number, *_ in records:
        if kind in (6, 7) and class_ != 9:
            image[sum(LIMITS[: CLASSES.index(class_)]) + number - 1] = 1 + numbers.below(16 * n)
    return spell(LIMITS, records, image, scans)


def timed():
    """Name and words of each file that is timed."""
    yield "start", spell((0, 0, 0, 2), [record(KINDS["and"], 1, (4, 1), (4, 2), (ALWAYS, NEVER, NEVER))], [3, 5], 1)
    for name in KINDS:
        for n in (1, 10, 100, 255, 600) if name in LONG else (1, 10, 100):
            if name == "cmpr":
                yield f"cmpr-{n}-dense", one_kind(name, n, 128, 1000)
                yield f"cmpr-{n}-none", one_kind(name, n, 128, 1000, differ=False)
            else:
                yield f"{name}-{n}", one_kind(name, n, 128, 1000)
    for blocks in (1, 16, 64):
        yield f"mix-{blocks}-1000", mix(blocks, 1000)
    for scans in (1, 10, 100):
        yield f"mix-128-{scans}", mix(128, scans)
    yield "mix-128-1000", mix(128, 1000)


# ---- small files, to be compared and not timed


def small(numbers):
    """A small accepted file whose matrices and pointers meet often."""
    sizes = [numbers.below(4), numbers.below(4), numbers.below(6), 3 + numbers.below(12)]
    records = []
    for k in range(numbers.below(9)):
        n = 1 + numbers.below(sizes[3] - 1)
        records.append(some_record(numbers, sizes, 1 + numbers.below(8), n, k, 16 * n + 3))
    image = [numbers.among((0, 1, 2, 15, 16, 17, 32, 33, 65535, numbers.below(65536))) for _ in range(sum(sizes))]
    return spell(sizes, records, image, 1 + numbers.below(40), numbers.among((None, None, 1, 2)))


def spoiled(numbers, words):
    """The bytes of a file with something changed, cut off or added."""
    words = list(words)
    change = numbers.below(8)
    if change < 5:
        head = words[0] + 2
        front = min(len(words), head + 15 * words[head - 1])
        i = numbers.below(front) if numbers.below(3) else numbers.below(len(words))
        words[i] = numbers.among((0, 1, 2, 3, 4, 5, 8, 9, 16, 17, 100, 101, 255, 256, 999, 1000, 1001, 65535, (words[i] + 1) % 65536))
    data = as_bytes(words)
    if change == 5:
        data = data[: numbers.below(len(data))]
    if change == 6:
        data += bytes(1 + numbers.below(3))
    if change == 7:
        data = data[: 2 * numbers.below(len(words))]
    return data


def edges():
    """Both sides of the edges that documents 01 and 02 name."""
    at_level = {
        None: (
            (1, 100, (4, 1), (4, 1)),
            (1, 101, (4, 1), (4, 1)),
            (7, 255, (9, 1), (4, 1)),
            (7, 256, (9, 1), (4, 1)),
            (1, 1, (0, 17), (4, 1)),
            (1, 1, (0, 16), (4, 1)),
            (7, 255, (9, 999), (4, 1)),
            (7, 255, (9, 1000), (4, 1)),
            (5, 100, (4, 1), (4, 200)),
            (5, 100, (4, 1), (4, 501)),
        ),
        1: ((6, 255, (9, 999), (4, 1)), (6, 256, (9, 999), (4, 1)), (6, 255, (9, 1000), (4, 1))),
        2: (
            (1, 101, (4, 1), (4, 1)),
            (5, 101, (4, 1), (4, 200)),
            (7, 600, (9, 9600), (4, 1)),
            (6, 600, (9, 9600), (4, 1)),
            (7, 601, (9, 9600), (4, 1)),
            (7, 600, (9, 9601), (4, 1)),
        ),
        0: ((1, 1, (4, 1), (4, 1)),),
        3: ((1, 1, (4, 1), (4, 1)),),
    }
    for level, blocks in at_level.items():
        for kind, n, top, middle in blocks:
            yield spell((2, 2, 2, 601), [record(kind, n, top, middle, (ALWAYS, NEVER, NEVER))], [3] * 607, 2, level)


def compared(count=400):
    """Name and bytes of each small file."""
    for k, words in enumerate(edges()):
        yield f"edge-{k}", as_bytes(words)
    for seed in range(count):
        numbers = Numbers(1000 + seed)
        words = small(numbers)
        yield f"{seed:04}-whole", as_bytes(words)
        yield f"{seed:04}-spoiled", spoiled(numbers, words)
    yield "empty", b""
    yield "one-byte", b"\0"
    yield "no-blocks", as_bytes(spell((0, 0, 0, 0), [], [], 1000))
    yield "too-long", as_bytes(mix(128, 1000)) + bytes(100000)


def write(folder):
    """Writes all files, and gives the names of those that are timed, in order."""
    parts = {"timed": [(name, as_bytes(words)) for name, words in timed()], "compared": list(compared())}
    for part, files in parts.items():
        os.makedirs(os.path.join(folder, part), exist_ok=True)
        for name, data in files:
            with open(os.path.join(folder, part, name), "wb") as out:
                out.write(data)
    return [name for name, _ in parts["timed"]]


if __name__ == "__main__":
    if len(sys.argv) != 2 or sys.argv[1].startswith("-"):
        sys.exit(__doc__.splitlines()[0])
    write(sys.argv[1])
