#!/usr/bin/env python3
"""Compares a `why` binary with the evaluator on random case files: lawful ones, and ones with a few bytes damaged.

    compare_random.py WHY [COUNT [SEED]]            the verdict line
    compare_random.py --report WHY [COUNT [SEED]]   the full report

Prints the first file on which they differ, and ends with status 1; else prints how many were equal.
"""

import random
import subprocess
import sys

sys.dont_write_bytecode = True
import evaluator

BOOL_KINDS = ("and", "or", "xor", "not", "pass")
NUM_KINDS = ("sum", "max", "min", "mean")
VALUES = (0, 1, -1, 3, 7, 15000, -15000, 29999, 30000, -30000)
DAMAGE = b"AZ09_-,=!&|><()GFXU \nabz\r\t\0\xff+"


def random_signals(rng):
    """Signals as (name, make, pins as text), with their types; pins name lower signals of the right type."""
    signals, types = [], []
    for number in range(rng.randint(1, 12)):
        bools = [other for other in range(number) if types[other] == "bool"]
        nums = [other for other in range(number) if types[other] == "num"]
        makes = ["bool", "num", "cbool", "cnum"] + ["delay"] * 2 * (number > 0)
        makes += list(BOOL_KINDS) * (len(bools) > 0) + (list(NUM_KINDS) + ["ge", "eq"]) * (len(nums) > 0)
        make = rng.choice(makes)
        name = f"S{number}"
        if make in ("bool", "num"):
            pins, type_name = "-", make
        elif make in ("cbool", "cnum"):
            pins, type_name = str(rng.randint(0, 1) if make == "cbool" else rng.choice(VALUES)), make[1:]
        elif make == "delay":
            default = rng.randrange(number)
            pins, type_name = (default, None), types[default]
        else:
            count = rng.choice(list(evaluator.KINDS[make].counts)[:rng.choice((2, 2, 7))])
            lower = bools if make in BOOL_KINDS else nums
            marks = ("", "", "!") if make in BOOL_KINDS else ("",)
            pins = ",".join(rng.choice(marks) + f"S{rng.choice(lower)}" for _ in range(count))
            type_name = evaluator.KINDS[make].output
        signals.append((name, make, pins))
        types.append(type_name)
    for number, (name, make, pins) in enumerate(signals):
        if make == "delay":
            later = rng.choice([other for other in range(len(signals)) if types[other] == types[number]])
            signals[number] = (name, make, f"S{pins[0]},S{later}")
    return signals, types


def random_rows(rng, signals, types, steps):
    """Random sources, everything else as the diagram makes it; now and then the last step stays as the one before."""
    rows, calm = [], rng.random() < 0.6
    for step in range(steps):
        row = []
        for number, (_, make, pins) in enumerate(signals):
            if make in ("bool", "num"):
                value = rng.randint(0, 1) if types[number] == "bool" else rng.choice(VALUES)
                if calm and rows and step > steps // 3:
                    value = rows[-1][number]
            elif make in ("cbool", "cnum"):
                value = int(pins)
            elif make == "delay":
                default, delayed = (int(name[1:]) for name in pins.split(","))
                value = row[default] if step == 0 else rows[-1][delayed]
            else:
                shown = [1 - row[int(pin[2:])] if pin[0] == "!" else row[int(pin[1:])] for pin in pins.split(",")]
                value = evaluator.value_of(make, shown)
            row.append(value)
        rows.append(row)
    return rows


def closing_steps(signals, rows):
    """The loop steps at which the run closes."""
    pairs = [(number, int(pins.split(",")[1][1:])) for number, (_, make, pins) in enumerate(signals) if make == "delay"]
    return [step for step in range(1, len(rows) + 1) if all(rows[step - 1][a] == rows[-1][b] for a, b in pairs)]


def random_formula(rng, types, depth):
    if depth == 0 or rng.random() < 0.15:
        signal = rng.randrange(len(types))
        return f"S{signal}" if types[signal] == "bool" else f"S{signal} {rng.choice('=<>')} {rng.choice(VALUES)}"
    operator = rng.choice(("!", "X", "F", "G", "U", "U", "&", "|", "->"))
    left = random_formula(rng, types, depth - 1)
    if operator in "!XFG":
        return f"{operator} ({left})" if rng.random() < 0.7 else f"{operator} {left}"
    right = random_formula(rng, types, depth - 1)
    return f"({left}) {operator} ({right})" if rng.random() < 0.7 else f"{left} {operator} {right}"


def random_case(rng):
    signals, types = random_signals(rng)
    steps = rng.randint(1, 16) if rng.random() < 0.2 else rng.randint(1, 6)
    rows = random_rows(rng, signals, types, steps)
    loop = rng.choice(closing_steps(signals, rows) or [steps])
    lines = ["case=1", f"signals={len(signals)}"]
    lines += ["signal=" + ",".join(signal) for signal in signals]
    lines += [f"steps={steps}", f"loop={loop}"] + ["row=" + ",".join(map(str, row)) for row in rows]
    lines.append("prop=" + random_formula(rng, types, rng.randint(0, 4)))
    return "".join(line + "\n" for line in lines).encode("ascii")


def damaged(rng, data):
    data = bytearray(data)
    for _ in range(rng.choice((1, 1, 2))):
        at = rng.randrange(len(data))
        turn = rng.random()
        if turn < 0.5:
            data[at] = rng.choice(DAMAGE)
        elif turn < 0.75:
            del data[at]
        else:
            data.insert(at, rng.choice(DAMAGE))
    return bytes(data)


def main(arguments):
    verdict_only = "--report" not in arguments
    rest = [argument for argument in arguments if argument != "--report"]
    if not 1 <= len(rest) <= 3:
        print("usage: compare_random.py [--report] WHY [COUNT [SEED]]", file=sys.stderr)
        return 2
    why, count = rest[0], int(rest[1]) if len(rest) > 1 else 1000
    rng = random.Random(int(rest[2]) if len(rest) > 2 else 1)
    for turn in range(count):
        data = random_case(rng)
        if rng.random() < 0.3:
            data = damaged(rng, data)
        text, status = evaluator.evaluate(data, verdict_only)
        ran = subprocess.run([why], input=data, stdout=subprocess.PIPE, stderr=subprocess.DEVNULL, check=False)
        if ran.stdout != text.encode("ascii") or ran.returncode != status:
            sys.stdout.flush()
            sys.stdout.buffer.write(b"file %d:\n%s\nthe evaluator, status %d:\n%s\nwhy, status %d:\n%s\n" % (
                turn, data, status, text.encode("ascii"), ran.returncode, ran.stdout))
            return 1
    print(f"{count} files, no difference")
    return 0


if __name__ == "__main__":
    sys.exit(main(sys.argv[1:]))
