#!/usr/bin/env python3
"""Measures `rtik oracle`, beside another simulator if one is given.

oracle.py [--beside "COMMAND WORDS"] [--repetitions N] [--only NAME,..] [FILE ..]

Without FILE, loads are made here. Each load is run N times by each program in
turns, with the output read and thrown away; the median processor time (user and
system) of the runs is taken, with the start of the process and the reading of
the file. Printed are grants, deliveries and megabytes of text a
second by the median, and the ratio of the medians. Another simulator gets the
file on its standard input; its bytes must be those of rtik.

The program must have been built: ./rtik at the top does that."""
import argparse
import json
import os
import shlex
import statistics
import subprocess
import sys
import tempfile

TOP = os.path.dirname(os.path.dirname(os.path.abspath(__file__)))
RTIK = os.path.join(TOP, ".built", "rtik")


def federation(end, federates, groups):
    return {"version": 1, "end": end, "buffers": 64, "groups": groups, "federates": federates}


def federate(name, lookahead, advance, variables=(), rules=()):
    made = {"name": name, "lookahead": lookahead, "advance": advance}
    if variables:
        made["vars"] = [{"name": v, "value": 0} for v in variables]
    if rules:
        made["rules"] = list(rules)
    return made


def all_but_none(count):
    return [{"name": "all", "members": ["f%d" % i for i in range(count)]}]


def idle():
    """TAR by 1 and no messages: the cost of a grant."""
    return federation(100000, [federate("f%d" % i, 1, {"tar": 1}) for i in range(16)], [])


def start():
    """Each federate sends 1,024 messages at the start, and none has a variable or a condition."""
    rules = [
        {"on": "start", "do": [{"send": "all", "delay": 1 + (64 * j + k) % 1000, "value": 16 * j + k} for k in range(16)]}
        for j in range(64)
    ]
    return federation(1000, [federate("f%d" % i, 1, {"tar": 1}, (), rules) for i in range(16)], all_but_none(16))


def dense():
    """All to all, some 16,000 messages each: mostly deliveries."""
    rule = {"on": "grant", "do": [{"send": "all", "delay": 6, "value": "$now"}]}
    return federation(96000, [federate("f%d" % i, 6, {"tar": 6}, (), [rule]) for i in range(16)], all_but_none(16))


def hot():
    """Messages go round between neighbours, by next event requests."""
    federates = []
    for i in range(16):
        rules = [
            {"on": "start", "do": [{"send": "g%d" % i, "delay": 5 + k, "value": k} for k in range(4)]},
            {"on": {"got": "g%d" % ((i - 1) % 16)}, "do": [{"add": "sum", "by": "$value"}, {"send": "g%d" % i, "delay": 5, "value": "sum"}]},
        ]
        federates.append(federate("f%d" % i, 5, {"ner": 100}, ("sum",), rules))
    groups = [{"name": "g%d" % i, "members": ["f%d" % ((i + 1) % 16)]} for i in range(16)]
    return federation(19000, federates, groups)


def retract():
    """Each second message is taken back before it is due."""
    rules = [
        {"on": "grant", "if": [{"left": "odd", "is": "eq", "right": 1}], "do": [{"retract": "last"}]},
        {"on": "grant", "do": [{"send": "all", "delay": 10, "value": "$now", "keep": "last"}, {"set": "odd", "to": 1}]},
        {"on": "grant", "if": [{"left": "turn", "is": "eq", "right": 1}], "do": [{"set": "odd", "to": 0}, {"set": "turn", "to": 0}]},
        {"on": "grant", "if": [{"left": "odd", "is": "eq", "right": 1}], "do": [{"add": "turn", "by": 1}]},
    ]
    return federation(10000, [federate("f%d" % i, 5, {"tar": 1}, ("last", "odd", "turn"), rules) for i in range(16)], all_but_none(16))


LOADS = {"idle": idle, "start": start, "dense": dense, "hot": hot, "retract": retract}


def run(command, path):
    """The output's bytes and the processor seconds of one run."""
    with open(path, "rb") as file:
        child = subprocess.Popen(command, stdin=file, stdout=subprocess.PIPE)
        output = child.stdout.read()
        _, status, usage = os.wait4(child.pid, 0)
        child.returncode = os.waitstatus_to_exitcode(status)
    return output, usage.ru_utime + usage.ru_stime


def measure(name, path, beside, repetitions):
    commands = [[RTIK, "oracle"]] + ([beside] if beside else [])
    seconds = [[] for _ in commands]
    outputs = [b"" for _ in commands]
    for turn in range(repetitions):
        for k in range(len(commands)):
            at = (k + turn) % len(commands)
            outputs[at], took = run(commands[at], path)
            seconds[at].append(took)
    if any(output != outputs[0] for output in outputs):
        sys.exit("%s: the texts differ" % name)
    text = outputs[0]
    grants = text.count(b" grant\n")
    deliveries = text.count(b" got ")
    row = [name]
    for k in range(len(commands)):
        middle = max(statistics.median(seconds[k]), 1e-6)
        row += ["%.3f" % middle, "%.2f" % (grants / middle / 1e6), "%.2f" % (deliveries / middle / 1e6),
                "%.0f" % (len(text) / middle / 1e6)]
    if beside:
        row.append("%.2f" % (statistics.median(seconds[0]) / max(statistics.median(seconds[1]), 1e-6)))
    print("  ".join("%9s" % cell for cell in row), flush=True)


def each_load(args, measure_one):
    """Measures each file, or where there is none each load that is asked for."""
    for path in args.files:
        measure_one(os.path.splitext(os.path.basename(path))[0][:9], path)
    if args.files:
        return
    only = set(filter(None, args.only.split(",")))
    with tempfile.TemporaryDirectory() as folder:
        for name, make in LOADS.items():
            if only and name not in only:
                continue
            path = os.path.join(folder, name + ".json")
            with open(path, "w") as file:
                json.dump(make(), file)
            measure_one(name, path)


def main():
    parser = argparse.ArgumentParser(usage=__doc__)
    parser.add_argument("--beside", default="")
    parser.add_argument("--repetitions", type=int, default=5)
    parser.add_argument("--only", default="")
    parser.add_argument("files", nargs="*")
    args = parser.parse_args()
    if not os.path.exists(RTIK):
        sys.exit("build the program first: ./rtik")
    beside = shlex.split(args.beside)
    head = ["load"] + ["seconds", "Mgrants/s", "Mdeliv/s", "MB/s"] * (2 if beside else 1) + (["ratio"] if beside else [])
    print("  ".join("%9s" % cell for cell in head))
    each_load(args, lambda name, path: measure(name, path, beside, args.repetitions))


if __name__ == "__main__":
    main()
