"""Prints the functions of the given files whose bodies have one shape: the same but for names, types and constants.

Bodies of three or more lines count. Each line names a function and those before it that have its shape.
"""
import re
import sys


def bodies(path):
    """The functions of a file, each with its name and the text of its body."""
    lines = open(path, encoding="utf-8").read().split("\n")
    at = 0
    while at < len(lines):
        found = re.match(r"^( *)(?:pub(?:\(crate\))? )?(?:final )?fn (\w+)", lines[at])
        if not found:
            at += 1
            continue
        indent, name, start = found.group(1), found.group(2), at
        while at < len(lines) and not lines[at].rstrip().endswith("{") and lines[at] != indent + "{":
            at += 1
        body = []
        at += 1
        while at < len(lines) and lines[at] != indent + "}":
            body.append(lines[at].strip())
            at += 1
        yield name, start + 1, body
        at += 1


def shape(body):
    """The body with each name, number and string in place of which a sign stands."""
    text = " ".join(line for line in body if not line.startswith("//"))
    text = re.sub(r'b?"[^"]*"|b?\'[^\']*\'|\b\d[\w_]*\b', "0", text)
    kept = {"for", "in", "if", "else", "match", "return", "let", "mut", "while", "Some", "None", "Ok", "Err", "true", "false"}
    return re.sub(r"[A-Za-z_]\w*", lambda m: m.group(0) if m.group(0) in kept else "x", text)


def main(paths):
    seen = {}
    for path in paths:
        for name, line, body in bodies(path):
            if len(body) >= 3:
                seen.setdefault(shape(body), []).append(f"{path}:{line} {name}")
    for places in seen.values():
        for place in places[1:]:
            print(f"{place} ~ {places[0]}")


main(sys.argv[1:])
