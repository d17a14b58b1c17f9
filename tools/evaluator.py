#!/usr/bin/env python3
"""An independent evaluator of case files, written from docs/ and sharing no code with `why`.

    evaluator.py [PATH]             the full report of the root at step 1
    evaluator.py --verdict [PATH]   one line, the verdict
    evaluator.py --selftest         the shortcuts below against plain enumeration

A case file is read from PATH, or from standard input. A refusal prints its line and ends with status 1. Clarity and
plain enumeration come before speed: forcing is decided by trying rows, causes by trying sets of pins. Only the causes
of F, G and U over more than a few visits, and the free pins of number blocks, are worked out in a shorter way, and
these ways are checked where they are used and by --selftest.
"""

import sys
from collections import namedtuple
from functools import lru_cache
from itertools import product

NUM_LIMIT = 30000
FILE_BYTES = 32768
PROPERTY_BYTES = 512
FILE_SIGNALS = 128
FILE_STEPS = 16
NODES = 64
PINS = 4096
BLOCK_PINS = 8
REPORT_BYTES = 65536
REPORT_LEAST = 64
END_LINE_ROOM = 16


class Refused(Exception):
    """A refusal: number, place and, for 8, a letter."""

    def __init__(self, number, place=0, letter=None):
        super().__init__(number, place, letter)
        self.number, self.place, self.letter = number, place, letter

    def line(self):
        letter = "" if self.letter is None else f",{self.letter}"
        return f"refused={self.number},{self.place}{letter}\n"


# ---------------------------------------------------------------------------------------------------------------------
# Forms: numbers, names, makes. Each reader gets bytes and answers the thing read, or None if the form is not met.

UPPER = frozenset(b"ABCDEFGHIJKLMNOPQRSTUVWXYZ")
LOWER = frozenset(b"abcdefghijklmnopqrstuvwxyz")
DIGITS = frozenset(b"0123456789")
WORD = UPPER | DIGITS | frozenset(b"_")


def read_number(text):
    digits = text[1:] if text[:1] == b"-" else text
    if not digits or not all(byte in DIGITS for byte in digits):
        return None
    if len(digits) > 5 or (digits[:1] == b"0" and text != b"0"):
        return None
    number = int(text)
    return number if -NUM_LIMIT <= number <= NUM_LIMIT else None


def read_count(text, least, most):
    number = read_number(text)
    return number if number is not None and least <= number <= most else None


def read_name(text):
    if 2 <= len(text) <= 16 and text[0] in UPPER and all(byte in WORD for byte in text):
        return text.decode("ascii")
    return None


def is_kind(text):
    return 1 <= len(text) <= 8 and all(byte in LOWER or byte in DIGITS for byte in text)


# A signal as its line has it: pins are pairs of a name and whether it is inverted.
Written = namedtuple("Written", "name make value names pins")


def read_signal(text):
    fields = text.split(b",")
    if len(fields) < 3:
        return None
    name, make, rest = read_name(fields[0]), fields[1], fields[2:]
    if name is None:
        return None
    if make in (b"bool", b"num"):
        return Written(name, make.decode(), None, [], []) if rest == [b"-"] else None
    if make in (b"cbool", b"cnum"):
        value = read_number(rest[0]) if len(rest) == 1 else None
        return None if value is None else Written(name, make.decode(), value, [], [])
    if make == b"delay":
        names = [read_name(field) for field in rest]
        return Written(name, "delay", None, names, []) if len(names) == 2 and None not in names else None
    if not is_kind(make):
        return None
    pins = [(read_name(field[1:] if field[:1] == b"!" else field), field[:1] == b"!") for field in rest]
    return None if any(pin is None for pin, _ in pins) else Written(name, make.decode(), None, [], pins)


def read_row(text, count):
    row = [read_number(field) for field in text.split(b",")]
    return row if len(row) == count and None not in row else None


# ---------------------------------------------------------------------------------------------------------------------
# The property. A parsed formula is a tuple: ("atom", name, sign, number), (operator, child), (operator, left, right).


sys.setrecursionlimit(10000)  # a property may have some 500 brackets inside one another


class NoSentence(Exception):
    """The text is no sentence of the grammar."""


def tokens_of(text):
    """The tokens: ("name", text), ("number", value), or (sign, None) for signs and letters that are operators."""
    tokens, at = [], 0
    while at < len(text):
        byte = text[at:at + 1]
        if byte == b" ":
            at += 1
        elif text[at:at + 2] == b"->":
            tokens.append(("->", None))
            at += 2
        elif byte in (b"!", b"&", b"|", b"(", b")", b"=", b"<", b">"):
            tokens.append((byte.decode(), None))
            at += 1
        elif byte == b"-" or text[at] in WORD:
            end = at + 1 if byte == b"-" else at
            while end < len(text) and text[end] in WORD:
                end += 1
            tokens.append(word_token(text[at:end]))
            at = end
        else:
            raise NoSentence
    return tokens


def word_token(word):
    if word in (b"G", b"F", b"X", b"U"):
        return (word.decode(), None)
    name, number = read_name(word), read_number(word)
    if name is not None:
        return ("name", name)
    if number is not None:
        return ("number", number)
    raise NoSentence


class Parser:
    """One method for each rule of the grammar; each takes its tokens from the front."""

    def __init__(self, tokens):
        self.tokens, self.at = tokens, 0

    def peek(self):
        return self.tokens[self.at][0] if self.at < len(self.tokens) else None

    def take(self, *wanted):
        if self.peek() not in wanted:
            raise NoSentence
        self.at += 1
        return self.tokens[self.at - 1]

    def sentence(self):
        formula = self.whole()
        if self.peek() is not None:
            raise NoSentence
        return formula

    def whole(self):
        left = self.either()
        if self.peek() != "->":
            return left
        self.take("->")
        return ("->", left, self.whole())

    def either(self):
        left = self.both()
        while self.peek() == "|":
            self.take("|")
            left = ("|", left, self.both())
        return left

    def both(self):
        left = self.until()
        while self.peek() == "&":
            self.take("&")
            left = ("&", left, self.until())
        return left

    def until(self):
        left = self.single()
        if self.peek() != "U":
            return left
        self.take("U")
        return ("U", left, self.until())

    def single(self):
        sign, text = self.take("!", "X", "F", "G", "(", "name")
        if sign == "(":
            inner = self.whole()
            self.take(")")
            return inner
        if sign != "name":
            return (sign, self.single())
        if self.peek() not in ("=", "<", ">"):
            return ("atom", text, None, None)
        comparison, _ = self.take("=", "<", ">")
        _, number = self.take("number")
        return ("atom", text, comparison, number)


# A node: an atom has signal, sign and number; an operator has its children's node numbers.
Node = namedtuple("Node", "operator children signal sign number")


def number_nodes(formula):
    """The nodes in order, left side, right side, node; an atom's signal is still a name."""
    if formula[0] == "atom":
        return [Node("atom", (), formula[1], formula[2], formula[3])]
    nodes, children = [], []
    for side in formula[1:]:
        before = len(nodes)
        for node in number_nodes(side):
            nodes.append(node._replace(children=tuple(before + child for child in node.children)))
        children.append(len(nodes) - 1)
    return nodes + [Node(formula[0], tuple(children), None, None, None)]


# ---------------------------------------------------------------------------------------------------------------------
# Reading a file: refusals 1 to 10.

# A signal of the diagram: make is bool, num, cbool, cnum, delay or a kind; pins are pairs of a signal and inverted.
Signal = namedtuple("Signal", "name make value default input pins")
Case = namedtuple("Case", "signals types nodes steps loop rows")


class Lines:
    """The lines of a file, taken one after another; `number` is that of the line taken last."""

    def __init__(self, data):
        pieces = data.split(b"\n")
        self.ended, self.rest, self.number = pieces[:-1], pieces[-1], 0

    def take(self, key, read):
        self.number += 1
        if self.number > len(self.ended) or not self.ended[self.number - 1].startswith(key):
            raise Refused(2, self.number)
        value = read(self.ended[self.number - 1][len(key):])
        if value is None:
            raise Refused(3, self.number)
        return value

    def finish(self):
        if self.number < len(self.ended) or self.rest:
            raise Refused(2, self.number + 1)


def read_property(text, line):
    try:
        nodes = number_nodes(Parser(tokens_of(text)).sentence())
    except NoSentence:
        raise Refused(4, line) from None
    if len(nodes) > NODES:
        raise Refused(4, line)
    return nodes


def read_case(data):
    if len(data) > FILE_BYTES:
        raise Refused(1)
    lines = Lines(data)
    lines.take(b"case=", lambda text: text if text == b"1" else None)
    count = lines.take(b"signals=", lambda text: read_count(text, 1, FILE_SIGNALS))
    written = [lines.take(b"signal=", read_signal) for _ in range(count)]
    steps = lines.take(b"steps=", lambda text: read_count(text, 1, FILE_STEPS))
    loop = lines.take(b"loop=", lambda text: read_count(text, 1, FILE_STEPS))
    rows = [lines.take(b"row=", lambda text: read_row(text, count)) for _ in range(steps)]
    text = lines.take(b"prop=", lambda text: text if len(text) <= PROPERTY_BYTES else None)
    nodes = read_property(text, lines.number)
    property_line = lines.number
    lines.finish()

    check_names(written, nodes, property_line)
    numbers = {signal.name: number for number, signal in enumerate(written)}
    signals = [resolve(signal, numbers) for signal in written]
    nodes = [node if node.signal is None else node._replace(signal=numbers[node.signal]) for node in nodes]
    check_diagram(signals)
    types = check_types(signals)
    check_atoms(nodes, types)
    if loop > steps:
        raise Refused(10)
    return Case(signals, types, nodes, steps, loop, rows)


def check_names(written, nodes, property_line):
    known, earlier = {signal.name for signal in written}, set()
    for number, signal in enumerate(written):
        used = signal.names + [name for name, _ in signal.pins]
        if signal.name in earlier or not known.issuperset(used) or (signal.pins and signal.make not in KINDS):
            raise Refused(5, number + 3)
        earlier.add(signal.name)
    if any(node.signal is not None and node.signal not in known for node in nodes):
        raise Refused(5, property_line)


def resolve(signal, numbers):
    default, delayed = [numbers[name] for name in signal.names] or (None, None)
    pins = tuple((numbers[name], inverted) for name, inverted in signal.pins)
    return Signal(signal.name, signal.make, signal.value, default, delayed, pins)


def check_diagram(signals):
    if sum(len(signal.pins) for signal in signals) > PINS:
        raise Refused(6)
    for number, signal in enumerate(signals):
        if len(signal.pins) > BLOCK_PINS or any(pin >= number for pin, _ in signal.pins):
            raise Refused(7, number)
        if signal.make == "delay" and signal.default >= number:
            raise Refused(7, number)


def check_types(signals):
    """The type of each signal; refusal 8."""
    for number, signal in enumerate(signals):
        if signal.pins and len(signal.pins) not in KINDS[signal.make].counts:
            raise Refused(8, number, "P")
    types = []
    for signal in signals:
        types.append(type_of(signal, types))
    for number, signal in enumerate(signals):
        wrong = signal.make == "delay" and types[signal.input] != types[number]
        wrong |= signal.value is not None and not is_of(types[number], signal.value)
        for pin, inverted in signal.pins:
            pin_type = KINDS[signal.make].pin
            wrong |= types[pin] != pin_type or (inverted and pin_type != "bool")
        if wrong:
            raise Refused(8, number, "T")
    return types


def type_of(signal, lower):
    if signal.make in ("bool", "cbool"):
        return "bool"
    if signal.make in ("num", "cnum"):
        return "num"
    return lower[signal.default] if signal.make == "delay" else KINDS[signal.make].output


def is_of(type_name, value):
    return value in (0, 1) if type_name == "bool" else -NUM_LIMIT <= value <= NUM_LIMIT


def check_atoms(nodes, types):
    for number, node in enumerate(nodes):
        if node.operator == "atom" and (types[node.signal] == "num") != (node.sign is not None):
            raise Refused(9, number)


# ---------------------------------------------------------------------------------------------------------------------
# Kinds of blocks. `value` takes the shown values and the greatest num; only --selftest uses another than 30,000.


def toward_zero(total, count):
    return total // count if total >= 0 else -(-total // count)


def value_of(kind, row, limit=NUM_LIMIT):
    if kind == "and":
        return int(all(row))
    if kind == "or":
        return int(any(row))
    if kind == "xor":
        return sum(row) % 2
    if kind == "not":
        return 1 - row[0]
    if kind == "pass":
        return row[0]
    if kind == "sum":
        return max(-limit, min(limit, sum(row)))
    if kind == "max":
        return max(row)
    if kind == "min":
        return min(row)
    if kind == "mean":
        return toward_zero(sum(row), len(row))
    if kind == "ge":
        return int(row[0] >= row[1])
    if kind == "eq":
        return int(row[0] == row[1])
    raise ValueError(kind)


Kind = namedtuple("Kind", "pin output counts")
MANY, ONE, TWO = range(2, BLOCK_PINS + 1), (1,), (2,)
KINDS = {
    "and": Kind("bool", "bool", MANY), "or": Kind("bool", "bool", MANY), "xor": Kind("bool", "bool", MANY),
    "not": Kind("bool", "bool", ONE), "pass": Kind("bool", "bool", ONE),
    "sum": Kind("num", "num", MANY), "max": Kind("num", "num", MANY), "min": Kind("num", "num", MANY),
    "mean": Kind("num", "num", MANY), "ge": Kind("num", "bool", TWO), "eq": Kind("num", "bool", TWO),
}


# ---------------------------------------------------------------------------------------------------------------------
# The table: refusals 12 to 14, and the nodes' truths.


def value_made(case, signal, step):
    """The value that the diagram makes at a step from the other values in the rows; None at a source."""
    this = case.signals[signal]
    if this.make in ("bool", "num"):
        return None
    if this.value is not None:
        return this.value
    if this.make == "delay":
        return case.rows[0][this.default] if step == 1 else case.rows[step - 2][this.input]
    return value_of(this.make, shown(case, signal, step))


def shown(case, signal, step):
    row = case.rows[step - 1]
    return tuple(1 - row[pin] if inverted else row[pin] for pin, inverted in case.signals[signal].pins)


def check_run(case):
    count = len(case.signals)
    places = [(step, signal) for step in range(1, case.steps + 1) for signal in range(count)]
    for step, signal in places:
        if not is_of(case.types[signal], case.rows[step - 1][signal]):
            raise Refused(12, (step - 1) * count + signal)
    for step, signal in places:
        made = value_made(case, signal, step)
        if made is not None and made != case.rows[step - 1][signal]:
            raise Refused(13, (step - 1) * count + signal)
    for number, signal in enumerate(case.signals):
        if signal.make == "delay" and case.rows[case.loop - 1][number] != case.rows[-1][signal.input]:
            raise Refused(14, number)


def visits(steps, loop, step):
    return list(range(step, steps + 1)) + list(range(loop, step))


def next_step(steps, loop, step):
    return step + 1 if step < steps else loop


def compare(sign, value, number):
    return {"=": value == number, "<": value < number, ">": value > number}[sign]


def operator_value(operator, row):
    """The truth of an operator for what its pins show; F, G and U have a pin for each child and visit."""
    if operator in ("X", "F", "G"):
        return int(all(row)) if operator == "G" else int(any(row))
    if operator == "U":
        half = len(row) // 2
        left, right = row[:half], row[half:]
        return int(any(right[visit] and all(left[:visit]) for visit in range(half)))
    if operator == "!":
        return 1 - row[0]
    return {"&": row[0] & row[1], "|": row[0] | row[1], "->": (1 - row[0]) | row[1]}[operator]


def node_pins(case, node, step):
    """The pins of an operator at a step: pairs of a node and a step."""
    children = case.nodes[node].children
    if case.nodes[node].operator == "X":
        return [(children[0], next_step(case.steps, case.loop, step))]
    if case.nodes[node].operator in ("F", "G", "U"):
        return [(child, visit) for child in children for visit in visits(case.steps, case.loop, step)]
    return [(child, step) for child in children]


def truths_of(case):
    """truths[step - 1][node]; children have lower numbers, so one pass by number fills all."""
    truths = [[None] * len(case.nodes) for _ in range(case.steps)]
    for number, node in enumerate(case.nodes):
        for step in range(1, case.steps + 1):
            if node.operator == "atom":
                value = case.rows[step - 1][node.signal]
                truth = value if node.sign is None else int(compare(node.sign, value, node.number))
            else:
                row = [truths[at - 1][child] for child, at in node_pins(case, number, step)]
                truth = operator_value(node.operator, row)
            truths[step - 1][number] = truth
    return truths


# ---------------------------------------------------------------------------------------------------------------------
# Forcing and causes. A set of pins is a tuple of pin numbers from 0.


def boxes(row, fixed, choices):
    """Every row that has the given row's value at the fixed pins and any of the choices at the others."""
    return product(*((value,) if pin in fixed else choices for pin, value in enumerate(row)))


def forced_by_enumeration(function, row, fixed, choices):
    output = function(row)
    return all(function(other) == output for other in boxes(row, fixed, choices))


def span_of(kind, row, fixed, limit):
    """The least and the greatest output of a number block while the free pins go over every num."""
    least = [value if pin in fixed else -limit for pin, value in enumerate(row)]
    most = [value if pin in fixed else limit for pin, value in enumerate(row)]
    if kind == "ge":
        return int(least[0] >= most[1]), int(most[0] >= least[1])
    if kind == "eq":
        meet = max(least[0], least[1]) <= min(most[0], most[1])
        points = least[0] == most[0] and least[1] == most[1]
        return int(points and meet), int(meet)
    # sum, max, min and mean never fall when a pin rises
    return value_of(kind, least, limit), value_of(kind, most, limit)


def number_block_forced(kind, row, fixed, limit=NUM_LIMIT):
    """By the span of outputs; rows at the ends of the free pins, and at the other pin's value, must reach both of its ends."""
    least, most = span_of(kind, row, fixed, limit)
    choices = {-limit, limit} | (set(row) if kind in ("ge", "eq") else set())
    reached = {value_of(kind, other, limit) for other in boxes(row, fixed, sorted(choices))}
    if min(reached) != least or max(reached) != most:
        raise AssertionError((kind, row, fixed, least, most, reached))
    return least == most


def minimal_sets(pins, forces):
    """The inclusion-minimal sets of pins that force, by rising pin sum (a subset has a lower sum than its superset)."""
    found = []
    for mask in range(1 << pins):
        if not any(mask & other == other for other in found):
            if forces(tuple(pin for pin in range(pins) if mask >> pin & 1)):
                found.append(mask)
    return [tuple(pin for pin in range(pins) if mask >> pin & 1) for mask in found]


@lru_cache(maxsize=None)
def block_causes(kind, row):
    if KINDS[kind].pin == "bool":
        function = lambda other: value_of(kind, other)
        return minimal_sets(len(row), lambda fixed: forced_by_enumeration(function, row, fixed, (0, 1)))
    return minimal_sets(len(row), lambda fixed: number_block_forced(kind, row, fixed))


@lru_cache(maxsize=None)
def comparison_varies(sign, number):
    """Whether nums compare differently; tried on every num."""
    return len({compare(sign, value, number) for value in range(-NUM_LIMIT, NUM_LIMIT + 1)}) == 2


@lru_cache(maxsize=None)
def operator_causes(operator, row):
    if operator in ("F", "G", "U"):
        return visit_causes(operator, row)
    return plain_operator_causes(operator, row)


def plain_operator_causes(operator, row):
    function = lambda other: operator_value(operator, other)
    return minimal_sets(len(row), lambda fixed: forced_by_enumeration(function, row, fixed, (0, 1)))


def visit_causes(operator, row):
    """Causes of F, G, U by their last visit. Each is tested to force and to be minimal; --selftest shows that none is missing."""
    found = until_causes(row) if operator == "U" else every_or_some_causes(row, int(operator == "F"))
    truth = operator_value(operator, row)
    # these operators never fall when a pin rises, so the free pins are worst where they all are against the truth
    worst = lambda fixed: [value if pin in fixed else 1 - truth for pin, value in enumerate(row)]
    for cause in found:
        if operator_value(operator, worst(cause)) != truth:
            raise AssertionError(("does not force", operator, row, cause))
        for pin in cause:
            if operator_value(operator, worst([other for other in cause if other != pin])) == truth:
                raise AssertionError(("not minimal", operator, row, cause))
    return found


def every_or_some_causes(row, decisive):
    """F is decided by one 1, G by one 0; without such a visit it takes them all."""
    single = [(visit,) for visit, truth in enumerate(row) if truth == decisive]
    return single or [tuple(range(len(row)))]


def until_causes(row):
    count = len(row) // 2
    left, right = row[:count], row[count:]
    found = []
    for last in range(count):
        if right[last] and all(left[:last]):
            found.append(tuple(range(last)) + (count + last,))
        if not operator_value("U", row) and not any(right[:last + 1]):
            if last == count - 1:
                found.append(tuple(range(count, 2 * count)))
            elif not left[last]:
                found.append((last,) + tuple(range(count, count + last + 1)))
    return found


# ---------------------------------------------------------------------------------------------------------------------
# Entries, the list of a target, the report.


class Opened:
    """A case whose run is checked and whose truths are filled in."""

    def __init__(self, case):
        check_run(case)
        self.case, self.truths = case, truths_of(case)
        self.signals, self.nodes = len(case.signals), len(case.nodes)

    def holds(self):
        return self.truths[0][-1] == 1

    def signal_entry(self, signal, step):
        return (step - 1) * self.signals + signal

    def node_entry(self, node, step):
        return self.signals * self.case.steps + (step - 1) * self.nodes + node

    def place(self, entry):
        """The step of an entry with its signal or its node; the other one is None."""
        if entry < self.signals * self.case.steps:
            return entry // self.signals + 1, entry % self.signals, None
        behind = entry - self.signals * self.case.steps
        return behind // self.nodes + 1, None, behind % self.nodes

    def is_source(self, entry):
        _, signal, _ = self.place(entry)
        return signal is not None and self.case.signals[signal].make in ("bool", "num")

    def value(self, entry):
        step, signal, node = self.place(entry)
        return self.case.rows[step - 1][signal] if node is None else self.truths[step - 1][node]

    def causes(self, entry):
        """The causes of an entry in order, each as the list of its members."""
        step, signal, node = self.place(entry)
        return self.signal_causes(signal, step) if node is None else self.node_causes(node, step)

    def signal_causes(self, number, step):
        signal = self.case.signals[number]
        if signal.make in ("bool", "num"):
            return []
        if signal.value is not None:
            return [[]]
        if signal.make == "delay":
            return [[self.signal_entry(signal.default, 1) if step == 1 else self.signal_entry(signal.input, step - 1)]]
        members = [self.signal_entry(pin, step) for pin, _ in signal.pins]
        return [[members[pin] for pin in cause] for cause in block_causes(signal.make, shown(self.case, number, step))]

    def node_causes(self, number, step):
        node = self.case.nodes[number]
        if node.operator == "atom":
            free = node.sign is not None and not comparison_varies(node.sign, node.number)
            return [[]] if free else [[self.signal_entry(node.signal, step)]]
        pins = node_pins(self.case, number, step)
        row = tuple(self.truths[at - 1][child] for child, at in pins)
        members = [self.node_entry(child, at) for child, at in pins]
        return [[members[pin] for pin in cause] for cause in operator_causes(node.operator, row)]

    def listed(self, target):
        """The target, and every member of every cause of a listed entry, by rising number."""
        found, waiting = {target}, [target]
        while waiting:
            for cause in self.causes(waiting.pop()):
                for member in cause:
                    if member not in found:
                        found.add(member)
                        waiting.append(member)
        return sorted(found)

    def word(self, entry):
        step, signal, node = self.place(entry)
        return f"{step:02}", self.case.signals[signal].name if node is None else f"#{node}"


def verdict_line(opened):
    return "verdict=holds\n" if opened.holds() else "verdict=fails\n"


def entry_lines(opened, entry):
    step, word = opened.word(entry)
    lines = [f"entry={step},{word},{opened.value(entry)}\n"]
    for cause in opened.causes(entry):
        lines.append("by=" + ("+".join(".".join(opened.word(member)) for member in cause) or "none") + "\n")
    return "".join(lines)


def report(opened, room=REPORT_BYTES):
    """The report of the root at step 1, in a buffer of `room` bytes."""
    if room < REPORT_LEAST:
        raise Refused(20)
    text = "report=1\n" + verdict_line(opened)
    entries = opened.listed(opened.node_entry(opened.nodes - 1, 1))
    for entry in entries:
        added = entry_lines(opened, entry)
        if len(text) + len(added) + END_LINE_ROOM > room:
            raise Refused(20)
        text += added
    return text + f"end={len(entries)},{sum(opened.is_source(entry) for entry in entries)}\n"


def evaluate(data, verdict_only):
    """What is printed, and the exit status."""
    try:
        opened = Opened(read_case(data))
        return (verdict_line(opened) if verdict_only else report(opened)), 0
    except Refused as refusal:
        return refusal.line(), 1


# ---------------------------------------------------------------------------------------------------------------------
# Self-test: shortcuts against enumeration, truths against the unrolled word, the worked examples.

WORKED_CASE = b"""case=1
signals=3
signal=READ,bool,-
signal=JUMP,bool,-
signal=OPEN,or,READ,JUMP
steps=2
loop=2
row=0,0,0
row=0,1,1
prop=G (OPEN -> READ)
"""

WORKED_REPORT = """report=1
verdict=fails
entry=02,READ,0
entry=02,JUMP,1
entry=02,OPEN,1
by=02.JUMP
entry=01,#3,0
by=02.#2
entry=02,#0,1
by=02.OPEN
entry=02,#1,0
by=02.READ
entry=02,#2,0
by=02.#0+02.#1
end=7,2
"""


def test_visit_causes():
    """F, G, U: all sets of pins, all rows, for small numbers of visits."""
    for operator, most in (("F", 6), ("G", 6), ("U", 4)):
        for count in range(1, most + 1):
            pins = 2 * count if operator == "U" else count
            rows = list(product((0, 1), repeat=pins))
            outputs = {row: operator_value(operator, row) for row in rows}
            last_visit = lambda cause: max(pin % count for pin in cause)
            for row in rows:
                forces = lambda fixed: forced_by_enumeration(outputs.get, row, fixed, (0, 1))
                plain = sorted(minimal_sets(pins, forces), key=last_visit)
                assert len({last_visit(cause) for cause in plain}) == len(plain), (operator, row)
                assert plain == visit_causes(operator, row), (operator, row, plain)


def test_number_blocks():
    """Number blocks over nums of −limit to limit, every row and every set of pins, against all rows."""
    for limit, most in ((1, 4), (2, 3), (4, 2)):
        nums = range(-limit, limit + 1)
        for kind in ("sum", "max", "min", "mean", "ge", "eq"):
            for count in range(2, (2 if kind in ("ge", "eq") else most) + 1):
                for row in product(nums, repeat=count):
                    for mask in range(1 << count):
                        fixed = tuple(pin for pin in range(count) if mask >> pin & 1)
                        plain = forced_by_enumeration(lambda other: value_of(kind, other, limit), row, fixed, nums)
                        assert plain == number_block_forced(kind, row, fixed, limit), (kind, limit, row, fixed)


def truth_on_word(operator, left, right, steps, loop, step):
    """The truth by positions of the infinite word; its next 3 * steps positions pass the loop at least twice."""
    word = [step]
    for _ in range(3 * steps):
        word.append(next_step(steps, loop, word[-1]))
    if operator == "X":
        return left[word[1]]
    if operator == "F":
        return int(any(left[at] for at in word))
    if operator == "G":
        return int(all(left[at] for at in word))
    for at in word:
        if right[at]:
            return 1
        if not left[at]:
            return 0
    return 0


def test_truths():
    for steps in range(1, 5):
        for loop in range(1, steps + 1):
            for left in product((0, 1), repeat=steps):
                for right in product((0, 1), repeat=steps):
                    rows = [list(row) for row in zip(left, right)]
                    signals = [Signal(name, "bool", None, None, None, ()) for name in ("LL", "RR")]
                    for operator in "XFGU":
                        formula = (operator, ("atom", "LL", None, None), ("atom", "RR", None, None))
                        nodes = number_nodes(formula if operator == "U" else formula[:2])
                        nodes = [node._replace(signal={"LL": 0, "RR": 1}.get(node.signal)) for node in nodes]
                        truths = truths_of(Case(signals, ["bool", "bool"], nodes, steps, loop, rows))
                        for step in range(1, steps + 1):
                            plain = truth_on_word(operator, (None,) + left, (None,) + right, steps, loop, step)
                            assert plain == truths[step - 1][-1], (operator, left, right, loop, step)


def test_examples():
    pins = lambda causes: [[pin + 1 for pin in cause] for cause in causes]
    assert pins(block_causes("and", (1, 1, 0))) == [[3]]
    assert pins(block_causes("or", (1, 1))) == [[1], [2]]
    assert pins(block_causes("sum", (30000, 30000, -5))) == [[1, 2]]
    assert pins(block_causes("max", (30000, 7))) == [[1]]
    assert pins(block_causes("max", (29999, 7))) == [[1, 2]]
    assert not comparison_varies(">", 30000) and comparison_varies(">", 29999)
    assert visits(3, 2, 1) == [1, 2, 3] and visits(3, 2, 2) == [2, 3] and visits(3, 2, 3) == [3, 2]
    # left 2, right 1, right 2; then right 1, 2, 3: the pins are left 1, 2, 3 and then right 1, 2, 3
    assert pins(operator_causes("U", (1, 0, 1, 0, 0, 0))) == [[2, 4, 5], [4, 5, 6]]
    assert value_of("mean", (3, 4)) == 3 and value_of("mean", (-3, -4)) == -3
    assert evaluate(WORKED_CASE, False) == (WORKED_REPORT, 0)
    assert evaluate(WORKED_CASE, True) == ("verdict=fails\n", 0)
    assert evaluate(b"", True) == ("refused=2,1\n", 1)
    opened = Opened(read_case(WORKED_CASE))
    assert report(opened, len(WORKED_REPORT) - len("end=7,2\n") + END_LINE_ROOM) == WORKED_REPORT
    try:
        report(opened, len(WORKED_REPORT) - len("end=7,2\n") + END_LINE_ROOM - 1)
    except Refused as refusal:
        assert refusal.line() == "refused=20,0\n"
    else:
        raise AssertionError("a report without room")


def selftest():
    for test in (test_examples, test_truths, test_number_blocks, test_visit_causes):
        test()
        print(f"{test.__name__}: ok")


def main(arguments):
    if arguments == ["--selftest"]:
        selftest()
        return 0
    verdict_only = "--verdict" in arguments
    paths = [argument for argument in arguments if argument != "--verdict"]
    if len(paths) > 1 or any(path.startswith("--") for path in paths):
        print("usage: evaluator.py [--verdict] [PATH] | --selftest", file=sys.stderr)
        return 2
    if paths:
        with open(paths[0], "rb") as file:
            data = file.read()
    else:
        data = sys.stdin.buffer.read()
    text, status = evaluate(data, verdict_only)
    sys.stdout.buffer.write(text.encode("ascii"))
    return status


if __name__ == "__main__":
    sys.exit(main(sys.argv[1:]))
