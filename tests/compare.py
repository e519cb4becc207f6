#!/usr/bin/env python3
"""The bench program against the second reading of document 01 (model.py), on generated files.

Use: tests/compare.py [--seed S] [--count N] [--jobs J] [--largest] -- PROGRAM [ARGUMENT ...]
     tests/compare.py --write SEED FILE
Runs the files of seeds S to S+N-1, one process for each; with --largest, also the largest file there can be.
Ends with 1 at a difference, after printing its seed and the first line that differs.
"""
import argparse
import collections
import multiprocessing
import os
import subprocess
import sys

from generate import bench_file, largest_file
from model import answer

TIME_LIMIT = 120  # seconds for one file

Result = collections.namedtuple("Result", "name first_line difference")


def file_of(name):
    return largest_file() if name == "largest" else bench_file(name)


def run_program(command, data):
    """What the program prints, and a line that says that it ended with another status than its text has, or what it said besides."""
    try:
        done = subprocess.run(command, input=data, stdout=subprocess.PIPE, stderr=subprocess.PIPE, timeout=TIME_LIMIT)
    except subprocess.TimeoutExpired:
        return "(no end after %d seconds)\n" % TIME_LIMIT
    except OSError as error:
        return "(not started: %s)\n" % error.strerror
    text = done.stdout.decode("latin-1")
    if done.returncode != text.startswith("refused"):
        text += "(ended with status %d)\n" % done.returncode
    if done.stderr:
        text += "(said %r)\n" % done.stderr
    return text


def first_difference(expected, got):
    """None when equal, else a text with the line's number and both lines."""
    if expected == got:
        return None
    expected_lines, got_lines = lines_of(expected), lines_of(got)
    number = 0
    while expected_lines[number : number + 1] == got_lines[number : number + 1]:
        number += 1
    sides = (number + 1, shown(expected_lines[number : number + 1]), shown(got_lines[number : number + 1]))
    return "line %d\n  expected: %s\n  got:      %s" % sides


def lines_of(text):
    """The lines, each with its newline where it has one."""
    parts = text.split("\n")
    return [part + "\n" for part in parts[:-1]] + parts[-1:] * (parts[-1] != "")


def shown(lines):
    """A list of one line or none, to be printed: unprintable characters as codes, a long line cut."""
    if not lines:
        return "(nothing)"
    text = ascii(lines[0].rstrip("\n"))[1:-1][:200]
    return text if lines[0].endswith("\n") else text + " (without a newline)"


def compare(task):
    name, command = task
    data = file_of(name)
    expected = answer(data)
    got = run_program(command, data)
    return Result(name, expected.split("\n", 1)[0], first_difference(expected, got))


def summary(results, title):
    counts = collections.Counter(refusal_of(result.first_line) for result in results)
    accepted = counts.pop(0, 0)
    each = ", ".join("%d: %d" % (number, counts[number]) for number in sorted(counts))
    return "%s: %d accepted, %d refused (%s), all equal" % (title, accepted, sum(counts.values()), each)


def refusal_of(first_line):
    words = first_line.split()
    return int(words[1]) if words[0] == "refused" else 0


def run_all(options):
    names = list(range(options.seed, options.seed + options.count)) + ["largest"] * options.largest
    results = []
    with multiprocessing.Pool(options.jobs) as pool:
        for result in pool.imap(compare, [(name, options.command) for name in names], chunksize=8):
            if result.difference is not None:
                print("seed %s: %s" % (result.name, result.difference))
                return 1
            results.append(result)
    print(summary(results, "%d files from seed %d" % (len(results), options.seed)))
    return 0


def write_file(seed, path):
    with open(path, "wb") as out:
        out.write(file_of("largest" if seed == "largest" else int(seed)))
    return 0


def parse(arguments):
    parser = argparse.ArgumentParser(description=__doc__, formatter_class=argparse.RawDescriptionHelpFormatter)
    parser.add_argument("--seed", type=int, default=1, help="the first file's seed (1)")
    parser.add_argument("--count", type=int, default=3000, help="the number of files (3000)")
    parser.add_argument("--jobs", type=int, default=os.cpu_count(), help="workers (the number of processors)")
    parser.add_argument("--largest", action="store_true", help="run the largest file too")
    parser.add_argument("--write", nargs=2, metavar=("SEED", "FILE"), help="write one seed's file and end")
    parser.add_argument("command", nargs="*", help="the bench program's start command, after --")
    options = parser.parse_args(arguments)
    if not options.write and not options.command:
        parser.error("no program given")
    return options


def main():
    options = parse(sys.argv[1:])
    return write_file(*options.write) if options.write else run_all(options)


if __name__ == "__main__":
    sys.exit(main())
