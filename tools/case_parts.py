"""Reads and rewrites the parts of crates/sql_cases/stdin that tools write.

A part stands between two comment lines that name its tool. How the lines of cases are read is told at the head of that file.
"""
import os
import re

CASES = os.path.join(os.path.dirname(os.path.abspath(__file__)), "..", "crates", "sql_cases", "stdin")
ESCAPES = {"n": "\n", "r": "\r", "t": "\t", "0": "\0", "\\": "\\", "e": ""}
# a line behind its sign: no LF at its end, how often or for which numbers it is meant, and its text
PIECE = re.compile(r"(-?)(?:\*(\d+)|#(\d+):(\d+))?(?: (.*))?", re.DOTALL)


def unescaped(text):
    """A text as the program reads it."""

    def meant(found):
        return bytes([int(found[1], 16)]) if found[1] else ESCAPES[found[2].decode()].encode()

    return re.sub(rb"\\(?:x(..)|(.))", meant, text.encode()).decode()


def escaped(text):
    """A text as a line of a case: a blank at its end would not be seen."""
    for letter in "\\nrt0":
        text = text.replace(ESCAPES[letter], "\\" + letter)
    return (text[:-1] + "\\x20" if text.endswith(" ") else text) or "\\e"


def piece(line):
    """What a line means behind its `<`."""
    dash, times, first, count, text = PIECE.fullmatch(line).groups()
    end, text = "" if dash else "\n", text or ""
    if first is None:
        return (unescaped(text) + end) * int(times or 1)
    return "".join(unescaped(text.replace("{}", str(number), 1)) + end for number in range(int(first), int(first) + int(count)))


class Line:
    """A line of a part with those that belong to it: its word and text, the lines as they stand, and the `>` lines behind them."""

    def __init__(self, line):
        self.word, _, text = line.partition(" ")
        self.text, self.lines, self.wanted = unescaped(text), [line], []


def read(lines):
    """The lines of a part, each with the `<` and `>` lines behind it."""
    found = []
    for line in lines:
        if line.startswith(">"):
            found[-1].wanted.append(line)
        elif line.startswith("<"):
            found[-1].text += piece(line[1:])
            found[-1].lines.append(line)
        elif line.startswith("#"):
            found.append(Line("#"))
            found[-1].lines = [line]
        else:
            found.append(Line(line))
    return found


def rewrite(tool, change):
    """Puts what `change` makes of the lines of a tool's part in their place, and says how many of them are others than before."""
    with open(CASES, encoding="utf-8") as it:
        lines = it.read().split("\n")
    first, last = (lines.index(f"# {word} of what tools/{tool} writes") for word in ("Begin", "End"))
    before, after = lines[first + 1 : last], change(lines[first + 1 : last])
    with open(CASES, "w", encoding="utf-8") as it:
        it.write("\n".join(lines[: first + 1] + after + lines[last:]))
    changed = sum(one != other for one, other in zip(before, after)) + abs(len(before) - len(after))
    print(f"{len(after)} lines, {changed} changed")


def write_answers(tool, answer):
    """Writes the answers of a tool's part: `answer` gives the lines that are wanted of a line, or none where it isn't asked."""

    def change(lines):
        found = read(lines)
        for line in found:
            wanted = answer(line)
            if wanted is not None:
                line.wanted = ["> " + escaped(one) for one in wanted]
        return [one for line in found for one in line.lines + line.wanted]

    rewrite(tool, change)
