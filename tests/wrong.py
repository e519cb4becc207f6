#!/usr/bin/env python3
"""Tells whether the generated files find each wrong reading of documents 01 and 02 (readings.py).

Use: tests/wrong.py [--seed S] [--count N] [--jobs J] [--enough E] [--table]
Each reading is an edit of model.py's text; the edited model and the model run the same files.
Prints for each the number of files that tell it apart and the first one's seed; with --enough E, stops at E files.
Ends with 1 when a reading is told apart by no file, or when an edit's old text does not stand exactly once.
"""
import argparse
import multiprocessing
import os
import sys
from collections import namedtuple

import model
from generate import bench_file
from readings import READINGS

# What an edited model may raise on a file that should have been refused; anything else is a fault of the edit.
CRASHES = (IndexError, KeyError)

Found = namedtuple("Found", "files first_seed")


def model_text():
    with open(model.__file__, encoding="utf-8") as source:
        return source.read()


def edited(reading):
    """The model's text with the reading's edits."""
    text = model_text()
    for old, new in reading.edits:
        if text.count(old) != 1:
            sys.exit("%s: the old text stands %d times: %r" % (reading.name, text.count(old), old))
        text = text.replace(old, new)
    return text


def answer_of(reading):
    """The edited model's `answer`, a crash being an answer too."""
    space = {"__name__": "wrong"}
    exec(compile(edited(reading), reading.name, "exec"), space)

    def answer(data):
        try:
            return space["answer"](data)
        except CRASHES:
            return "crash"

    return answer


def judge(task):
    """How many of the files tell the reading apart."""
    number, enough = task
    answer = answer_of(READINGS[number])
    seeds = []
    for seed, data, expected in FILES:
        if answer(data) != expected:
            seeds.append(seed)
            if len(seeds) == enough:
                break
    return Found(len(seeds), seeds[0] if seeds else None)


FILES = []


def make_files(seed, count):
    for each in range(seed, seed + count):
        data = bench_file(each)
        FILES.append((each, data, model.answer(data)))


def text_lines(results):
    return ["%5d  first %-6s %s / %s: %s" % (found.files, found.first_seed, reading.part, reading.name, reading.wrong)
            for reading, found in results]


def table_lines(results):
    lines = ["| part | wrong reading | what is wrong | files | first seed |", "|---|---|---|---|---|"]
    return lines + ["| %s | %s | %s | %d | %s |" % (reading.part, reading.name, reading.wrong, found.files, found.first_seed)
                    for reading, found in results]


def parse(arguments):
    parser = argparse.ArgumentParser(description=__doc__, formatter_class=argparse.RawDescriptionHelpFormatter)
    parser.add_argument("--seed", type=int, default=1, help="the first file's seed (1)")
    parser.add_argument("--count", type=int, default=3000, help="the number of files (3000)")
    parser.add_argument("--jobs", type=int, default=os.cpu_count(), help="workers (the number of processors)")
    parser.add_argument("--enough", type=int, help="stop when so many files tell a reading apart (run all)")
    parser.add_argument("--table", action="store_true", help="print a table for a document")
    return parser.parse_args(arguments)


def main():
    options = parse(sys.argv[1:])
    for reading in READINGS:
        edited(reading)
    make_files(options.seed, options.count)
    tasks = [(number, options.enough) for number in range(len(READINGS))]
    with multiprocessing.get_context("fork").Pool(options.jobs) as pool:
        results = list(zip(READINGS, pool.map(judge, tasks, chunksize=1)))
    print("\n".join((table_lines if options.table else text_lines)(results)))
    missed = [reading.name for reading, found in results if found.files == 0]
    if missed:
        print("\nnot told apart: " + ", ".join(missed))
        return 1
    print("\n%d wrong readings told apart by %d files from seed %d" % (len(READINGS), options.count, options.seed))
    return 0


if __name__ == "__main__":
    sys.exit(main())
