#!/usr/bin/env python3
"""Compares the program with an explicit-state checker that shares no code with it, on random models.

usage: run.py PROGRAM [MODELS [SEED]]

The last line counts the runs that agree. A run that does not is printed with its model. A run has a minute to end, and some
model has to be accepted, so that a program that refuses every text does not pass."""

import random
import subprocess
import sys
import tempfile

from meaning import Meaning
from random_models import RandomModel
from reports import Report

SHORT_BUDGETS = [1, 3, 10, 30, 100, 300]

# how long a run may take, in seconds
LONGEST = 60


def jobs(rng, report, signals):
    """The commands of a model: their words behind the command and the file, and the report that each should print."""
    most = rng.choice([200, 200, 1, 3])
    cut = ["--cubes", str(most)] if most != 200 else []
    yield "init", cut, report.init(most)
    yield "reach", cut, report.reach(most)
    yield "check", [], report.check()
    yield "vacuity", [], report.vacuity()
    if signals:
        asked = rng.sample(signals, min(len(signals), 2))
        yield "cover", [*(name for name, _ in asked), *cut], report.cover(asked, most)


def ran(words):
    try:
        found = subprocess.run(words, capture_output=True, text=True, timeout=LONGEST)
    except subprocess.TimeoutExpired:
        return "", "no end", None
    return found.stdout, found.stderr, found.returncode


def wanted(lines, passes):
    return "".join(line + "\n" for line in lines), "", 0 if passes else 1


def is_short(found, budget):
    """Whether the run was refused for its nodes, with all of them held."""
    return found[0] == "" and found[1].startswith(f"nodes: held {budget}, budget {budget}, roots ") and found[2] == 6


def compare(program, seed, file):
    """The runs on the model of a seed that agree, and those that do not."""
    rng = random.Random(seed)
    made = RandomModel(rng)
    text = made.text()
    with open(file, "w", encoding="utf-8") as it:
        it.write(text)
    if ran([program, "init", file])[2] == 3:
        return 0, 0
    agree, differ = 0, 0
    for command, words, (lines, passes) in jobs(rng, Report(Meaning(made.model)), made.signals()):
        budget = rng.choice(SHORT_BUDGETS)
        found = ran([program, command, file, *words])
        short = ran([program, command, file, *words, "--nodes", str(budget)])
        report = wanted(lines, passes)
        if found == report and (short == report or is_short(short, budget)):
            agree += 1
        else:
            differ += 1
            print(f"seed {seed}: {command} {' '.join(words)}\n{text}found {found}\nwanted {report}\n--nodes {budget}: {short}")
    return agree, differ


def main():
    program, models, first = sys.argv[1], int((sys.argv[2:] or [50])[0]), int((sys.argv[3:] or [1])[0])
    with tempfile.TemporaryDirectory() as place:
        found = [compare(program, seed, f"{place}/model") for seed in range(first, first + models)]
    agree, differ = (sum(counts) for counts in zip(*found))
    accepted = sum(counts != (0, 0) for counts in found)
    if models and not accepted:
        differ += 1
        print(f"{accepted} of {models} models are accepted")
    print(f"{agree} passed, {differ} failed")
    return 1 if differ else 0


if __name__ == "__main__":
    sys.exit(main())
