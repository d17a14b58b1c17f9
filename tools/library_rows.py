#!/usr/bin/env python3
"""Questions to block libraries with their answers, which come from docs/LIBRARIES.md and share no code with the crates.

    library_rows.py --gate                          writes crates/ask/stdin and crates/ask/stdout
    library_rows.py --check                         says whether these two files are what --gate writes
    library_rows.py --compare ASK [COUNT [SEED]]    asks the program `ask` COUNT random questions, half of them lawful

A question is a line `LIBRARY KIND COUNT V1 V2 V3 V4 V5 V6 V7 V8 SET`, and its answer a line `SHAPE VALUE FORCING`. Whether a
set forces is decided over rows: all of them for gates and tables; for number blocks by the evaluator's span of outputs, and
beside it no row of those tried may have another output.
"""

import itertools
import pathlib
import random
import subprocess
import sys

sys.dont_write_bytecode = True
import evaluator

PINS = evaluator.BLOCK_PINS
LIMIT = evaluator.NUM_LIMIT
GATES = ("and", "or", "xor", "not", "pass")
NUMBERS = ("sum", "max", "min", "mean", "ge", "eq")
# The sample of truth tables: its pin counts, and whether a row with that many ones gives 1.
SAMPLE = ((2, lambda ones: ones == 2), (3, lambda ones: ones >= 2), (8, lambda ones: ones % 2 == 1))
KINDS = {"gates": GATES, "numbers": NUMBERS, "pair": GATES + NUMBERS, "tables": SAMPLE}
LETTER = {"bool": "b", "num": "n"}
GATE_INPUT = pathlib.Path(__file__).resolve().parent.parent / "crates" / "ask"


class Block:
    """What a library says of a kind at a pin count: the pins' type, the output's, the function, and forcing."""

    def __init__(self, pin, output, function, forced):
        self.pin, self.output, self.function, self.forced = pin, output, function, forced


def table_block(pins, gives):
    function = lambda row: int(gives(sum(row)))
    return pins, Block("bool", "bool", function, lambda row, fixed: by_rows(function, row, fixed))


def by_rows(function, row, fixed):
    return evaluator.forced_by_enumeration(function, row, fixed, (0, 1))


def number_forced(kind, row, fixed):
    """By the span of outputs; where it says that the set forces, rows near the ends and near the row's values agree."""
    forced = evaluator.number_block_forced(kind, row, fixed)
    near = sorted({-LIMIT, 0, LIMIT} | set(row[:2]))
    if forced and (len(row) - len(fixed)) <= 3:
        output = evaluator.value_of(kind, row)
        for other in evaluator.boxes(row, fixed, near):
            assert evaluator.value_of(kind, other) == output, (kind, row, fixed, other)
    return forced


def block_of(library, kind, count):
    """The block, or the letter with which the library declines."""
    kinds = KINDS[library]
    if kind >= len(kinds):
        return "K"
    if library == "tables":
        pins, block = table_block(*kinds[kind])
        return block if count == pins else "P"
    name = kinds[kind]
    known = evaluator.KINDS[name]
    if count not in known.counts:
        return "P"
    function = lambda row: evaluator.value_of(name, row)
    if known.pin == "bool":
        return Block(known.pin, known.output, function, lambda row, fixed: by_rows(function, row, fixed))
    return Block(known.pin, known.output, function, lambda row, fixed: number_forced(name, row, fixed))


def answer(library, kind, count, row, pins):
    block = block_of(library, kind, count)
    if isinstance(block, str):
        return f"{block} {block} {block}"
    shape = LETTER[block.pin] * count + ":" + LETTER[block.output]
    if not all(evaluator.is_of(block.pin, value) for value in row[:count]) or any(row[count:]):
        return f"{shape} T T"
    value = block.function(row[:count])
    if pins >> count:
        return f"{shape} {value} T"
    fixed = tuple(pin for pin in range(count) if pins >> pin & 1)
    return f"{shape} {value} {'yes' if block.forced(row[:count], fixed) else 'no'}"


def line(library, kind, count, row, pins):
    return " ".join(str(field) for field in (library, kind, count, *row, pins))


# ---------------------------------------------------------------------------------------------------------------------
# Random questions.

NEAR = (0, 1, -1, 2, 7, -7, 29999, 30000, -29999, -30000, 15000, -15000, 10000, 3750, -3750)
BEYOND = (30001, -30001, 32767, -32768, 2, -1)


def lawful_value(rng, pin):
    if pin == "bool":
        return rng.randint(0, 1)
    return rng.choice(NEAR) if rng.random() < 0.6 else rng.randint(-LIMIT, LIMIT)


def lawful_question(rng):
    library = rng.choice(sorted(KINDS))
    kind = rng.randrange(len(KINDS[library]))
    count = rng.choice([count for count in range(PINS + 1) if not isinstance(block_of(library, kind, count), str)])
    pin = block_of(library, kind, count).pin
    row = tuple(lawful_value(rng, pin) for _ in range(count))
    if rng.random() < 0.3:  # most pins alike, so that sets of few pins force
        row = tuple(row[0] if rng.random() < 0.8 else value for value in row)
    return library, kind, count, row + (0,) * (PINS - count), rng.randrange(1 << count)


def damaged_question(rng):
    """A lawful question with one or two of its parts changed to whatever their form allows."""
    library, kind, count, row, pins = lawful_question(rng)
    for _ in range(rng.randint(1, 2)):
        part = rng.randrange(5)
        if part == 0:
            kind = rng.choice((rng.randrange(12), len(KINDS[library]), 255, 256, 65535, rng.randrange(65536)))
        elif part == 1:
            count = rng.choice((rng.randrange(10), rng.randrange(256)))
        elif part == 2:
            place = rng.randrange(PINS)
            row = row[:place] + (rng.choice(BEYOND + NEAR),) + row[place + 1:]
        elif part == 3:
            pins = rng.randrange(256)
        else:
            library = rng.choice(sorted(KINDS))
    return library, kind, count, row, pins


def random_questions(rng, count):
    return [lawful_question(rng) if number % 2 else damaged_question(rng) for number in range(count)]


# ---------------------------------------------------------------------------------------------------------------------
# The questions of the gate.


def padded(*row):
    return row + (0,) * (PINS - len(row))


EXAMPLES = (
    ("gates", 0, 3, padded(1, 1, 0), 4), ("gates", 0, 3, padded(1, 1, 0), 3), ("gates", 0, 3, padded(1, 1, 0), 0),
    ("gates", 1, 2, padded(1, 1), 1), ("gates", 1, 2, padded(1, 1), 2), ("gates", 1, 2, padded(1, 1), 0),
    ("numbers", 0, 3, padded(30000, 30000, -5), 3), ("numbers", 0, 3, padded(30000, 30000, -5), 7),
    ("numbers", 1, 2, padded(30000, 7), 1), ("numbers", 1, 2, padded(30000, 7), 2),
    ("numbers", 1, 2, padded(29999, 7), 1), ("numbers", 1, 2, padded(29999, 7), 3),
    ("numbers", 3, 2, padded(3, 4), 3), ("numbers", 3, 2, padded(-3, -4), 3),
    ("pair", 5, 3, padded(30000, 30000, -5), 7), ("pair", 10, 2, padded(-30000, -30000), 3),
    ("numbers", 3, 8, (-30000,) * 8, 255), ("numbers", 3, 8, (30000,) * 8, 127),
    ("numbers", 4, 2, padded(30000, 5), 1), ("numbers", 4, 2, padded(5, -30000), 2), ("numbers", 4, 2, padded(29999, 5), 1),
)
UNLAWFUL = (
    ("gates", 0, 2, padded(1, 2), 3), ("gates", 0, 2, padded(1, -1), 3), ("gates", 0, 2, padded(1, 1, 1), 3),
    ("gates", 3, 1, padded(0, 0, 0, 0, 0, 0, 0, 1), 1), ("numbers", 0, 2, padded(30001, 0), 3),
    ("numbers", 0, 2, padded(-30001, 0), 3), ("numbers", 0, 2, padded(32767, -32768), 0),
    ("numbers", 0, 2, padded(1, 1, 1), 3), ("tables", 0, 2, padded(1, 2), 3), ("tables", 1, 3, padded(1, 1, 1, 1), 3),
    ("pair", 2, 2, padded(30000, 1), 3), ("gates", 0, 2, padded(1, 2), 4), ("gates", 9, 9, (9,) * 8, 255),
    ("gates", 0, 9, (1,) * 8, 0), ("gates", 0, 255, (1,) * 8, 0), ("gates", 0, 2, padded(1, 1), 4),
    ("gates", 0, 8, (1,) * 8, 255), ("numbers", 1, 7, padded(1, 2, 3, 4, 5, 6, 7), 128),
)
UNKNOWN = tuple((library, kind, 2, padded(1, 1), 3) for library in sorted(KINDS)
                for kind in (len(KINDS[library]), len(KINDS[library]) + 1, 256, 65535))
MALFORMED = (
    "", " ", "gates", "gates 0 2 1 1 0 0 0 0 0 0", "gates 0 2 1 1 0 0 0 0 0 0 3 0", "gates 0 2 1 1 0 0 0 0 0 0 3 ",
    " gates 0 2 1 1 0 0 0 0 0 0 3", "gates  0 2 1 1 0 0 0 0 0 0 3", "Gates 0 2 1 1 0 0 0 0 0 0 3", "gate 0 2 1 1 0 0 0 0 0 0 3",
    "gates -1 2 1 1 0 0 0 0 0 0 3", "gates 65536 2 1 1 0 0 0 0 0 0 3", "gates 0 256 1 1 0 0 0 0 0 0 3",
    "gates 0 -2 1 1 0 0 0 0 0 0 3", "gates 0 2 32768 1 0 0 0 0 0 0 3", "gates 0 2 -32769 1 0 0 0 0 0 0 3",
    "gates 0 2 1 1 0 0 0 0 0 0 256", "gates 0 2 1 1 0 0 0 0 0 0 -1", "gates 0 2 1 x 0 0 0 0 0 0 3", "gates 0 2 1 1 0 0 - 0 0 0 3",
    "gates 0 2 1 1.0 0 0 0 0 0 0 3", "gates\t0 2 1 1 0 0 0 0 0 0 3", "gates 0x0 2 1 1 0 0 0 0 0 0 3", "?",
)


def each_count(rng):
    """Each kind at each pin count, with a row that fits the count."""
    for library in KINDS:
        for kind in range(len(KINDS[library])):
            for count in range(10):
                block = block_of(library, kind, count)
                pin = "bool" if isinstance(block, str) else block.pin
                row = tuple(lawful_value(rng, pin) for _ in range(min(count, PINS)))
                yield library, kind, count, padded(*row), rng.randrange(1 << min(count, PINS))


def gate_questions():
    rng = random.Random(5)
    asked = list(itertools.chain(EXAMPLES, UNLAWFUL, UNKNOWN, each_count(rng)))
    asked += [lawful_question(rng) for _ in range(60)] + [damaged_question(rng) for _ in range(30)]
    pairs = [(line(*question), answer(*question)) for question in asked] + [(text, "?") for text in MALFORMED]
    return "".join(text + "\n" for text, _ in pairs), "".join(text + "\n" for _, text in pairs)


def ask(program, questions):
    """The program's answers, one for each question."""
    text = "".join(question + "\n" for question in questions)
    run = subprocess.run([program], input=text.encode(), stdout=subprocess.PIPE, check=True)
    answers = run.stdout.decode().split("\n")
    if len(answers) != len(questions) + 1 or answers[-1]:
        sys.exit(f"{len(questions)} questions, {len(answers) - 1} answers")
    return answers[:-1]


def compare(program, count, seed):
    asked = random_questions(random.Random(seed), count)
    expected = [answer(*question) for question in asked]
    lines = [line(*question) for question in asked]
    differ = [place for place in zip(lines, expected, ask(program, lines)) if place[1] != place[2]]
    for question, wanted, given in differ[:20]:
        print(f"{question}: {wanted} expected, {given} given")
    ends = {word: sum(text.endswith(" " + word) for text in expected) for word in ("yes", "no", "K", "P", "T")}
    print(f"{count} questions ({', '.join(f'{number} {word}' for word, number in ends.items())}), {len(differ)} differences")
    return int(bool(differ))


def main(arguments):
    if arguments[:1] == ["--compare"] and 2 <= len(arguments) <= 4:
        count, seed = (int(text) for text in (arguments[2:] + ["2000", "1"][len(arguments) - 2:]))
        return compare(arguments[1], count, seed)
    if arguments not in (["--gate"], ["--check"]):
        sys.exit(__doc__)
    files = list(zip((GATE_INPUT / "stdin", GATE_INPUT / "stdout"), gate_questions()))
    if arguments == ["--gate"]:
        for path, text in files:
            path.write_text(text)
        return 0
    stale = [path.name for path, text in files if path.read_text() != text]
    print(f"differs: {', '.join(stale)}" if stale else "no difference")
    return int(bool(stale))


if __name__ == "__main__":
    sys.exit(main(sys.argv[1:]))
