#!/usr/bin/env python3
"""Compares what the program `ask` says of number blocks with z3 (Debian package `z3`).

    forcing_z3.py --ask ASK [COUNT [SEED]]    COUNT random lawful rows, each with a random set of pins

For each question z3 gets the block as a formula over integers within the limits, and is asked twice for a model: for a lawful
row that agrees with the given one on the set and has another output, of which there is none exactly if the set forces; and
for an output of the given row other than the printed value, of which there is none. The exit status is 0 if all agree, 1 if
some differ, 2 if z3 is missing.
"""

import random
import shutil
import subprocess
import sys

sys.dont_write_bytecode = True
import library_rows

LOW, HIGH = "(- 30000)", "30000"
KINDS = library_rows.NUMBERS


def numeral(value):
    return str(value) if value >= 0 else f"(- {-value})"


def stopped(total):
    return f"(let ((t {total})) (ite (< t {LOW}) {LOW} (ite (> t {HIGH}) {HIGH} t)))"


def toward_zero(total, count):
    return f"(let ((t {total})) (ite (>= t 0) (div t {count}) (- (div (- t) {count}))))"


def extreme(sign, pins):
    """The pin that none other passes, by comparing one after another."""
    term = pins[0]
    for pin in pins[1:]:
        term = f"(let ((a {term}) (b {pin})) (ite ({sign} a b) a b))"
    return term


def output(kind, pins):
    """The output of a block as a term over its pins' terms."""
    total = f"(+ {' '.join(pins)})"
    if kind == "sum":
        return stopped(total)
    if kind == "mean":
        return toward_zero(total, len(pins))
    if kind in ("max", "min"):
        return extreme(">=" if kind == "max" else "<=", pins)
    return f"(ite ({'>=' if kind == 'ge' else '='} {pins[0]} {pins[1]}) 1 0)"


def another_output(kind, row, pins):
    """A lawful row with the same values on the set and another output."""
    names = [f"p{pin}" for pin in range(len(row))]
    parts = ["(push)"]
    for pin, (name, value) in enumerate(zip(names, row)):
        parts.append(f"(declare-const {name} Int) (assert (<= {LOW} {name} {HIGH}))")
        if pins >> pin & 1:
            parts.append(f"(assert (= {name} {numeral(value)}))")
    parts.append(f"(assert (distinct {output(kind, names)} {output(kind, [numeral(value) for value in row])}))")
    return "\n".join(parts + ["(check-sat)", "(pop)"])


def other_value(kind, row, value):
    term = output(kind, [numeral(pin) for pin in row])
    return f"(push)\n(assert (distinct {term} {numeral(value)}))\n(check-sat)\n(pop)"


def random_question(rng):
    """A kind, a lawful row and a set of pins, most of them in the set."""
    kind = rng.randrange(len(KINDS))
    count = rng.randint(2, 8) if KINDS[kind] not in ("ge", "eq") else 2
    row = [library_rows.lawful_value(rng, "num") for _ in range(count)]
    if rng.random() < 0.4:
        row = [rng.choice((30000, -30000)) if rng.random() < 0.5 else value for value in row]
    share = rng.choice((0.3, 0.7, 0.9))
    return kind, count, row, sum(1 << pin for pin in range(count) if rng.random() < share)


def z3_answers(scripts):
    """One word for each script."""
    text = "(set-logic ALL)\n" + "\n".join(scripts) + "\n"
    run = subprocess.run(["z3", "-smt2", "-in"], input=text.encode(), stdout=subprocess.PIPE, check=True)
    answers = run.stdout.decode().split()
    if len(answers) != len(scripts):
        sys.exit(f"{len(scripts)} scripts, and z3 says {' '.join(answers[:20])}")
    return answers


def compare(program, count, seed):
    rng = random.Random(seed)
    asked = [random_question(rng) for _ in range(count)]
    lines = [library_rows.line("numbers", kind, pins, library_rows.padded(*row), mask) for kind, pins, row, mask in asked]
    given = [text.split(" ") for text in library_rows.ask(program, lines)]
    scripts = []
    for (kind, _, row, mask), (_, value, _) in zip(asked, given):
        scripts += [another_output(KINDS[kind], tuple(row), mask), other_value(KINDS[kind], row, int(value))]
    words = z3_answers(scripts)
    differences, forced = 0, 0
    for text, (shape, value, forcing), model, wrong in zip(lines, given, words[::2], words[1::2]):
        forced += model == "unsat"
        if (model, forcing) not in (("unsat", "yes"), ("sat", "no")) or wrong != "unsat":
            differences += 1
            print(f"{text}: {shape} {value} {forcing} given; another output: {model}; another value: {wrong}")
    print(f"{count} questions, {forced} forced and {count - forced} not, {differences} differences")
    return int(bool(differences))


def main(arguments):
    if arguments[:1] != ["--ask"] or not 2 <= len(arguments) <= 4:
        sys.exit(__doc__)
    if shutil.which("z3") is None:
        print("z3 is missing: apt-get install z3")
        return 2
    count, seed = (int(text) for text in (arguments[2:] + ["500", "1"][len(arguments) - 2:]))
    return compare(arguments[1], count, seed)


if __name__ == "__main__":
    sys.exit(main(sys.argv[1:]))
