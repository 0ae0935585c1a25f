#!/usr/bin/env python3
"""Compares the headroom program with the model, answer by answer, on random calls.

    python3 oracle/compare.py [--calls N] [--seed S] [--program PATH]

The calls are split into runs, each with a new station and a plant of its own. A run's lines go to the program and to the
model; of error lines only the first word is compared. Every difference is printed with its line and the seed of its run,
and `generate.py SEED CALLS` with the two numbers that are printed writes the lines of that run again. The last line says
what was seen. The exit status is 1 where there is any difference.
"""

import argparse
import collections
import os
import random
import re
import subprocess
import sys

HERE = os.path.dirname(os.path.abspath(__file__))
sys.path.insert(0, HERE)

import generate  # noqa: E402
import model  # noqa: E402

CALL_NAMES = ["station", "enrol", "retire", "bid", "withdraw", "open", "energy", "amount", "figure", "probe", "trapezium",
              "close", "abandon", "lapse"]
REFUSALS = list(range(1, 9)) + list(range(21, 32))
GROUNDS = list(range(1, 9)) + list(range(11, 17))
LIMITS = list(range(1, 9))

FIGURE = re.compile(r"ok figure \d+ ground (\d+) by \d+")
FIGURES = re.compile(r"\d+/(\d+)/\d+")
BROKEN = re.compile(r"declined 31 ground (\d+) by \d+")


class Tally:
    """What was seen in the answers of the program."""

    def __init__(self):
        self.calls = 0
        self.names = collections.Counter()
        self.errors = 0
        self.refusals = collections.Counter()
        self.grounds = collections.Counter()        # in figures
        self.broken = collections.Counter()         # in refusals 31

    def see(self, line, answer):
        self.calls += 1
        words = answer.split()
        if not words or words[0] == "error":
            self.errors += 1
            return
        self.names[line.split()[0].decode("ascii", "replace")] += 1
        if words[0] == "declined":
            self.refusals[int(words[1])] += 1
            match = BROKEN.fullmatch(answer)
            if match:
                self.broken[int(match.group(1))] += 1
            return
        match = FIGURE.fullmatch(answer)
        if match:
            self.grounds[int(match.group(1))] += 1
        elif answer.startswith("ok figures"):
            for ground in FIGURES.findall(answer):
                self.grounds[int(ground)] += 1

    def missing(self):
        """Everything that was to be seen and was not."""
        lacking = ["call " + name for name in CALL_NAMES if not self.names[name]]
        lacking += ["refusal %d" % number for number in REFUSALS if not self.refusals[number]]
        lacking += ["ground %d" % number for number in GROUNDS if not self.grounds[number]]
        lacking += ["limit %d in a refusal" % number for number in LIMITS if not self.broken[number]]
        return lacking


def comparable(answer):
    """An answer as it is compared: the text of an error is free."""
    if answer == "error" or answer.startswith("error "):
        return "error"
    return answer


def shown(line):
    text = repr(line)[2:-1]
    return text if len(text) <= 400 else text[:200] + " .. " + text[-100:]


def model_answers(data):
    """The lines of the input that get an answer, each with its number in the input and the answer of a new model."""
    session = model.Session()
    answered = []
    for number, line in enumerate(model.lines_of(data), 1):
        answer = session.answer(line)
        if answer is not None:
            answered.append((number, line, answer))
    return answered


def program_answers(program, data):
    """The answers of the program, and what is wrong with its end, if anything is."""
    try:
        done = subprocess.run([program], input=data, capture_output=True, timeout=120)
    except subprocess.TimeoutExpired:
        return [], "it did not end"
    text = done.stdout.decode("utf-8", "replace")
    answers = text.split("\n")
    fault = None
    if answers.pop() != "":
        fault = "its last answer has no line break"
    if done.returncode != 0:
        fault = "it ended with status %d" % done.returncode
    if done.stderr:
        fault = "it wrote to its standard error: %r" % done.stderr[:200]
    return answers, fault


def compare_run(program, seed, calls, tally):
    """Compares one run and prints its differences; gives their number."""
    data = generate.generate(seed, calls)
    expected = model_answers(data)
    answers, fault = program_answers(program, data)
    label = "seed %d calls %d" % (seed, calls)
    differences = 0
    if fault is not None:
        print("%s: the program: %s" % (label, fault))
        differences += 1
    if len(answers) != len(expected):
        print("%s: %d answers of the program, %d of the model" % (label, len(answers), len(expected)))
        differences += 1
    for (number, line, wanted), got in zip(expected, answers):
        tally.see(line, got)
        if comparable(got) != comparable(wanted):
            differences += 1
            print("%s line %d: %s" % (label, number, shown(line)))
            print("    program: %s" % got)
            print("    model:   %s" % wanted)
    return differences


def counts(numbers, counter):
    return " ".join("%s:%d" % (number, counter[number]) for number in numbers)


def main():
    parser = argparse.ArgumentParser(description="Compares the headroom program with the model on random calls.")
    parser.add_argument("--calls", type=int, default=20_000, help="how many calls in all (20000)")
    parser.add_argument("--seed", type=int, default=1, help="where the random choices begin (1)")
    parser.add_argument("--program", default=os.path.join(HERE, "..", "target", "bin", "headroom"),
                        help="the program (target/bin/headroom)")
    options = parser.parse_args()
    if not os.path.exists(options.program):
        sys.exit("there is no program at %s: build it, or name it with --program" % options.program)

    # Runs of very different lengths: the short ones get a station near its last serial to the end.
    rng = random.Random(options.seed)
    tally = Tally()
    runs = differences = 0
    while tally.calls < options.calls:
        calls = rng.choice([100, 100, 1_000, 2_000, 3_000])
        seed = rng.randrange(2**40)
        before = tally.calls
        differences += compare_run(options.program, seed, calls, tally)
        runs += 1
        if tally.calls == before:
            print("no answers any more: stopped")
            break
        sys.stdout.flush()

    lacking = tally.missing()
    seen = "every call, refusal and ground was seen" if not lacking else "NOT SEEN: " + ", ".join(lacking)
    print("calls %d in %d runs; %s; errors %d; refusals %s; grounds in figures %s; limits in refusal 31 %s; %s; differences %d"
          % (tally.calls, runs, counts(CALL_NAMES, tally.names), tally.errors, counts(REFUSALS, tally.refusals),
             counts(GROUNDS, tally.grounds), counts(LIMITS, tally.broken), seen, differences))
    return 1 if differences else 0


if __name__ == "__main__":
    sys.exit(main())
