"""Reports (docs/WORLDS.md), and where two of them differ: jnirun's first, and then a virtual machine's, which has notes beside it (`? ..`)."""
import itertools
import re

import classes

MESSAGES, NUMBERS = "messages of exceptions", "objects' numbers"
# How many pairs of objects are tried.
TRIES = 200_000


class TooAlike(Exception):
    """So many objects could be matched that it isn't found out whether they can be matched together."""


class Report:
    """The printed lines, the ends of the threads, the rows of the objects by their numbers, the journal, and the notes."""

    def __init__(self, lines):
        self.printed, self.ends, self.rows, self.journal, self.notes = [], [], {}, "", []
        for line in lines:
            word, _, rest = line.partition(" ")
            if word == "?":
                self.notes.append(rest)
            elif word == "journal":
                self.journal = rest
            elif word.startswith("#"):
                self.rows[word] = rest.split(" ")
            else:
                (self.printed if re.fullmatch(r"-?\d+", rest) else self.ends).append(line)

    def row(self, number):
        """The row of a number, as it is written."""
        return " ".join([number, *self.rows.get(number, ["(not told)"])])


class Matching:
    """Objects of two reports, one matched with one, so that their classes, their numbers and what they refer to are the same."""

    def __init__(self, ours, theirs, given):
        self.ours, self.theirs, self.given = ours, theirs, given
        self.to, self.back, self.tries = {}, {}, 0

    def is_message(self, number, place, value, other):
        """Whether that is the message of an exception that a function of the JNI has thrown, which jnirun leaves NULL."""
        of_exception = place == 1 and self.ours[number][0] in [*classes.THROWN, classes.METHOD_ERROR] and number not in self.given
        return of_exception and value == "null" and other.startswith("#")

    def are_alike(self, number, other):
        """Whether two objects are the same but for what they refer to."""
        row, of_other = self.ours.get(number), self.theirs.get(other)
        if row is None or of_other is None or len(row) != len(of_other):
            return False
        return all(
            value == theirs or self.is_message(number, place, value, theirs) if not value.startswith("#") else theirs.startswith("#")
            for place, (value, theirs) in enumerate(zip(row, of_other))
        )

    def undo(self, matched):
        for number in matched:
            del self.back[self.to.pop(number)]

    def pair(self, number, other):
        """Matches two objects, and those that they refer to: which of ours are matched by it, or None and the two that can't be."""
        self.tries += 1
        matched, waiting = [], [(number, other)]
        while waiting:
            number, other = waiting.pop()
            if self.to.get(number) == other:
                continue
            if number in self.to or other in self.back or not self.are_alike(number, other):
                self.undo(matched)
                return None, (number, other)
            self.to[number], self.back[other] = other, number
            matched.append(number)
            waiting += [it for it in zip(self.ours[number], self.theirs[other]) if it[0].startswith("#")]
        return matched, None

    def left(self):
        """Our objects that aren't matched, first those to which none of them refers."""
        left = [it for it in self.ours if it not in self.to]
        below = {value for it in left for value in self.ours[it] if value != it}
        return sorted(left, key=lambda it: it in below)

    def match_left(self):
        """Matches what only static fields and global references lead to, of which a report doesn't say which is which. Answers whether it can be done."""
        choices = []
        while left := self.left():
            first, others = left[0], iter([it for it in self.theirs if it not in self.back])
            while (matched := next((it for other in others if (it := self.pair(first, other)[0])), None)) is None:
                if not choices:
                    return False
                if self.tries > TRIES:
                    raise TooAlike
                first, others, last = choices.pop()
                self.undo(last)
            choices.append((first, others, matched))
        return True

    def messages(self):
        """Their messages that ours don't have."""
        pairs = ((number, place, values) for number, other in self.to.items() for place, values in enumerate(zip(self.ours[number], self.theirs[other])))
        return {values[1] for number, place, values in pairs if self.is_message(number, place, *values)}


def object_differences(ours, theirs, given):
    """The lines that tell where the objects differ, and the names of what may differ and does."""
    matching, lines = Matching(ours.rows, theirs.rows, given), []
    for number in given:
        wrong = matching.pair(number, number)[1]
        if wrong:
            lines.append(f"objects: jnirun has {ours.row(wrong[0])}; the virtual machine has {theirs.row(wrong[1])}")
    if not lines and not matching.match_left():
        lines += [f"objects: jnirun has {ours.row(it)}, and the virtual machine nothing that goes with it" for it in matching.left()]
    messages = matching.messages()
    if not lines:
        more = (it for it in theirs.rows if it not in matching.back and it not in messages)
        lines += [f"objects: the virtual machine has {theirs.row(it)}, and jnirun nothing that goes with it" for it in more]
    names = [MESSAGES] if messages else []
    return lines, names + ([NUMBERS] if any(number != other for number, other in matching.to.items()) else [])


def differences(ours, theirs, given):
    """The lines that tell where two reports differ, and the names of what may differ and does. `given` are the numbers of the world's objects."""
    lines = []
    printed = enumerate(itertools.zip_longest(ours.printed, theirs.printed, fillvalue="(nothing)"), 1)
    first = next(((at, *both) for at, both in printed if both[0] != both[1]), None)
    if first:
        lines.append("line {}: jnirun prints {}; the virtual machine prints {}".format(*first))
    for both in itertools.zip_longest(ours.ends, theirs.ends, fillvalue="(nothing)"):
        if both[0] != both[1]:
            lines.append("ends: jnirun has {}; the virtual machine has {}".format(*both))
    of_objects, names = object_differences(ours, theirs, given)
    return lines + of_objects, names
