#!/usr/bin/env python3
"""The key rule of document 01, tried on the bench program by pairs of tables.

Use: tests/key.py [--seed S] [--count N] [--jobs J] -- PROGRAM [ARGUMENT ...]
A pair is one block on two tables that agree on what the rule names and on nothing else: every other bit of the one is the
opposite of the other's. The block's line must be equal, and the lines of the probes after it, which show every bit it writes.
Then one bit of one thing that the rule names is changed: for each kind and thing some of these tables must give other lines.
Runs N pairs of each kind; ends with 1 where any of this is not so.
"""
import argparse
import collections
import multiprocessing
import os
import sys

from compare import first_difference, run_program
from generate import ALWAYS, NEVER, NO_COILS, Dice, File, Plan, Shape, block_for, image_for, level_of, probe_of
from model import (
    AND, AREAS, CMPR, COILS, COMP, CONSTANT, HOLDING, MBIT, OR, SENS, WORK, XOR, Block, Input, Node, first_bit, pointer_node,
    second_number,
)


def words_at(node, n):
    """The words of a matrix, each by its area and its index there."""
    first = first_bit(node.class_, node.number) // 16
    return [(node.class_, first + i) for i in range(n)]


# "two tables that agree on a block's source, on its destination matrix where the kind is AND, OR, XOR, CMPR or MBIT, and on
#  its pointer"; "SENS's source is its middle matrix; MBIT has none."
def named(block):
    found = {}
    if block.kind != MBIT:
        found["source"] = words_at(block.middle if block.kind == SENS else block.top, block.n)
    if block.kind in (AND, OR, XOR, CMPR, MBIT):
        found["destination"] = words_at(Node(block.middle.class_, second_number(block)), block.n)
    pointer = pointer_node(block)
    if pointer is not None and pointer.class_ != CONSTANT:
        found["pointer"] = words_at(pointer, 1)
    return found


def plan_for(dice, kind):
    """One block of that kind, its inputs always or never, with power on top as a rule."""
    plan = Plan(dice, Shape({area: dice.between(3, 8) for area in AREAS}, 1, 1, level_of(dice)))
    inputs = [Input(int(dice.chance(percent)), 0) for percent in (80, 50, 50)]
    plan.blocks.append(block_for(plan, kind)._replace(inputs=inputs))
    return plan


def add_probes(plan):
    """After the block, show each word of the destination it writes, coils by COMP to a register, and each coil it names."""
    block = plan.blocks[0]
    if block.inputs[0].code == 1 and block.kind not in (CMPR, SENS):
        for area, i in words_at(block.middle, block.n):
            shown = Node(HOLDING, i + 1 if area == HOLDING else plan.sizes[HOLDING])
            if area == COILS:
                plan.blocks.append(Block(COMP, 1, Node(COILS, 16 * i + 1), shown, ALWAYS, NO_COILS))
            plan.blocks.append(probe_of(shown))
    for coil in filter(None, block.coils):
        plan.blocks.append(probe_of(Node(CONSTANT, 0))._replace(inputs=[Input(2, coil)] + NEVER[1:]))


def opposite(areas, block):
    """The table with every bit the opposite, but for what the rule names."""
    kept = {word for words in named(block).values() for word in words}
    return {area: [word if (area, i) in kept else 65535 - word for i, word in enumerate(areas[area])] for area in AREAS}


def changed(dice, areas, block, words):
    """The table with one bit of those words changed, often the one at the block's pointer."""
    node = pointer_node(block)
    pointer = 1 if node is None else node.number if node.class_ == CONSTANT else areas[node.class_][node.number - 1]
    last = 16 * len(words)
    position = dice.pick([dice.between(1, last), max(1, min(pointer, last))])
    area, i = words[(position - 1) // 16]
    word = areas[area][i] ^ 1 << (16 - position) % 16
    return {**areas, area: areas[area][:i] + [word] + areas[area][i + 1 :]}


def try_pair(task):
    """The first line in which the pair differs, or None; and which changes the lines show."""
    kind, seed, command = task
    dice = Dice(8 * seed + kind)
    plan = plan_for(dice, kind)
    block, first = plan.blocks[0], image_for(plan)
    add_probes(plan)
    lines, others = (run_program(command, File(plan, areas).data()) for areas in (first, opposite(first, block)))
    fault = first_difference(lines, others) if lines.startswith("blocks ") else "not accepted: " + lines
    tables = {(kind, thing): changed(dice, first, block, words) for thing, words in named(block).items()}
    return fault, {thing: run_program(command, File(plan, tables[thing]).data()) != lines for thing in tables}


def main():
    parser = argparse.ArgumentParser(description=__doc__, formatter_class=argparse.RawDescriptionHelpFormatter)
    parser.add_argument("--seed", type=int, default=1, help="the first pair's seed (1)")
    parser.add_argument("--count", type=int, default=40, help="the number of pairs of each kind (40)")
    parser.add_argument("--jobs", type=int, default=os.cpu_count(), help="workers (the number of processors)")
    parser.add_argument("command", nargs="+", help="the bench program's start command, after --")
    options = parser.parse_args()
    tasks = [(kind, seed, options.command) for kind in WORK for seed in range(options.seed, options.seed + options.count)]
    with multiprocessing.Pool(options.jobs) as pool:
        results = pool.map(try_pair, tasks, chunksize=8)
    faults = ["kind %d, seed %d: %s" % (*task[:2], fault) for task, (fault, _) in zip(tasks, results) if fault is not None]
    seen = collections.Counter()
    for _, shown in results:
        seen.update(shown)
    faults += ["kind %d: no pair shows its %s" % thing for thing in seen if seen[thing] == 0]
    if faults:
        print("\n".join(faults))
        return 1
    print("\n".join("kind %d, %s changed: %d pairs differ" % (*thing, seen[thing]) for thing in sorted(seen)))
    print("%d pairs of tables equal by the key rule, %d changed ones not" % (len(results), sum(seen.values())))
    return 0


if __name__ == "__main__":
    sys.exit(main())
