#!/usr/bin/env python3
"""Measures steps of the floors by the programs letter_rounds and letter_threads.

floor.py [--steps N] [--letters N] [--repetitions N]

One thread: the nine steps of a letter on the plain floor (letter_rounds), and single
calls on the floor that threads share (letter_threads). Each is run with no steps and
with N in turns; the median processor times are subtracted, and the difference is
divided by the steps. Several threads: how many letters come in a second of the clock
where 2, 3 or 4 threads send letters to each other, the median of the runs.

The programs must have been built: `rt run -- 1` in crates/letter_rounds and in
crates/letter_threads does that. What else runs on the machine changes the figures,
those of several threads most."""
import argparse
import os
import resource
import statistics
import subprocess
import sys
import time

TOP = os.path.dirname(os.path.dirname(os.path.abspath(__file__)))
ROUNDS = os.path.join(TOP, "crates", "letter_rounds", "out", "letter_rounds")
THREADS = os.path.join(TOP, "crates", "letter_threads", "out", "letter_threads")
STEPS_OF_A_LETTER = 9
CALLS = [("look", "a load"), ("free", "a load"), ("publish", "a store"), ("collect", "a swap")]


def processor_seconds(words):
    before = resource.getrusage(resource.RUSAGE_CHILDREN)
    subprocess.run(words, stdout=subprocess.DEVNULL, check=True)
    after = resource.getrusage(resource.RUSAGE_CHILDREN)
    return after.ru_utime - before.ru_utime + after.ru_stime - before.ru_stime


def nanoseconds(words_of, steps, repetitions):
    empty, full = [], []
    for _turn in range(repetitions):
        empty.append(processor_seconds(words_of(0)))
        full.append(processor_seconds(words_of(steps)))
    return (statistics.median(full) - statistics.median(empty)) / steps * 1e9


def letters_a_second(threads, letters, repetitions):
    took = []
    for _turn in range(repetitions):
        start = time.monotonic()
        made = subprocess.run([THREADS, str(letters), str(threads)], stdout=subprocess.PIPE, check=True)
        took.append(time.monotonic() - start)
        if not made.stdout.endswith(b"all came as they were sent\n"):
            sys.exit("letters were lost: %r" % made.stdout)
    return 2 * threads * (threads - 1) * letters / statistics.median(took)


def main():
    parser = argparse.ArgumentParser(usage=__doc__)
    parser.add_argument("--steps", type=int, default=50_000_000)
    parser.add_argument("--letters", type=int, default=1_000_000)
    parser.add_argument("--repetitions", type=int, default=5)
    args = parser.parse_args()
    for program in (ROUNDS, THREADS):
        if not os.path.exists(program):
            sys.exit("build the program first: rt run -- 1, in %s" % os.path.dirname(os.path.dirname(program)))
    turns = args.repetitions
    letter = nanoseconds(lambda n: [ROUNDS, str(n)], args.steps // STEPS_OF_A_LETTER, turns)
    print("plain floor, one thread:  %6.2f ns a step, of the nine of a letter" % (letter / STEPS_OF_A_LETTER))
    for call, kind in CALLS:
        took = nanoseconds(lambda n: [THREADS, str(n), call], args.steps, turns)
        print("shared floor, one thread: %6.2f ns a call of %s (%s)" % (took, call, kind))
    for threads in (2, 3, 4):
        rate = letters_a_second(threads, args.letters, turns)
        print("shared floor, %d threads:  %6.2f million letters a second" % (threads, rate / 1e6))


if __name__ == "__main__":
    main()
