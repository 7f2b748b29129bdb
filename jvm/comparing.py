"""Runs a program in a world under jnirun and on a Java virtual machine, the calls of one thread after those of another, and says where they differ."""
import re
import subprocess
import tempfile

import classes
import machine
import reports

# The turns of a schedule, and how many each thread is given at first.
MOST_TURNS, FIRST_TURNS = 1_000_000, 4_000
# Why a virtual machine may do otherwise than jnirun, by what is noted of its run (shim.h, Report.java).
LAWFUL = {
    "capacity": "capacity for local references",
    "copies": "elements that are copied",
    "views": "views that are held",
    "entries": "entries into a monitor",
    "isCopy": "copies or views",
    "class": "classes of the library",
    "weak": "weak references that are cleared",
}
HEAP, FIELDS = "want of heap", "fields of the library's classes"


class Refused(Exception):
    """What jnirun answers to texts that it refuses."""


class Verdict:
    """What a comparison came to: one of KINDS; the names of why, the lines that tell where they differ, and what the virtual machine said beside its report."""

    KINDS = AGREE, LAWFUL, NOT_COMPARED, DIFFER = "they agree", "they differ lawfully", "they aren't compared", "they differ"

    def __init__(self, kind, names=(), lines=(), said=""):
        self.kind, self.names, self.lines, self.said = kind, list(names), list(lines), said.strip()

    def __str__(self):
        names = (", but for " if self.kind == self.AGREE else ": ") + ", ".join(self.names) if self.names else ""
        return "\n    ".join([self.kind + names, *self.lines])


def first_unended(lines, threads):
    """What a report has of the first thread that hasn't ended, or None."""
    ends = [next(it for it in lines if re.match(rf"T{number} [a-z]", it)).partition(" ")[2] for number in range(1, threads + 1)]
    return next((it for it in ends if it != "ended" and not it.startswith("uncaught ")), None)


def run_in_turn(jnirun, program, world):
    """The lines of jnirun's report, each thread taking all its turns after those before it, and what stops the first thread that doesn't end, or None."""
    threads = len(re.findall(rb"^thread ", world, re.M))
    turns = FIRST_TURNS
    with tempfile.TemporaryDirectory(prefix="jnirun-turns-") as room:
        for name, text in (("prog.c", program), ("world", world)):
            with open(f"{room}/{name}", "wb") as file:
                file.write(text)
        while True:
            turns = min(turns, MOST_TURNS // max(1, threads))
            with open(f"{room}/schedule", "w", encoding="ascii") as file:
                file.write(" ".join(f"{number}*{turns}" for number in range(1, threads + 1)))
            words = [jnirun, "run", "prog.c", "world", "--schedule", "schedule"]
            ran = subprocess.run(words, cwd=room, stdin=subprocess.DEVNULL, capture_output=True, timeout=600, check=False)
            if ran.returncode != 0:
                raise Refused((ran.stdout + ran.stderr).decode(errors="replace").strip())
            lines = ran.stdout.decode().splitlines()
            stopped = first_unended(lines, threads)
            if stopped != "running" or turns == MOST_TURNS // threads:
                return lines, stopped
            turns *= 16


def uses_flag(program, function):
    """Whether a program can see if what a function gives is a copy: any use of an array's buffer, and of a string's the flag that is asked for."""
    return re.search(rf"\bGet\w*{function}\b" + (r"\s*\([^,]*,[^,]*,\s*&" if function.startswith("String") else ""), program)


def lawful_names(program, ours, theirs):
    """Why this run may differ."""
    if "!" in ours.journal:
        yield HEAP
    if "~" in ours.journal:
        yield LAWFUL["weak"]
    for kind, _, what in (note.partition(" ") for note in theirs.notes):
        if kind != "isCopy" or uses_flag(program, what):
            yield LAWFUL[kind]
    if '"message"' in program:
        yield FIELDS


def given_numbers(world):
    """The numbers of a world's objects."""
    first = classes.first_number(world.decode("latin-1"), re.findall(rb"^class ", world, re.M))
    return [f"#{first + at}" for at in range(len(re.findall(rb"^(?:objects?|array|string) ", world, re.M)))]


def compare(jnirun, java, program, world):
    """The verdict on a program in a world."""
    lines, stopped = run_in_turn(jnirun, program, world)
    if stopped:
        return Verdict(Verdict.NOT_COMPARED, ["a run without an end" if stopped == "running" else stopped.partition(" line ")[0]])
    ours, said = reports.Report(lines), ""
    try:
        lines, said = java.run(program, world)
        theirs = reports.Report(lines)
        told, names = reports.differences(ours, theirs, given_numbers(world))
    except classes.NotMade as why:
        return Verdict(Verdict.NOT_COMPARED, [str(why)])
    except reports.TooAlike:
        return Verdict(Verdict.NOT_COMPARED, ["too many objects that are alike"])
    except machine.Failed as why:
        theirs, told, names = reports.Report(why.report), [f"the virtual machine: {why}"], []
    if not told:
        return Verdict(Verdict.AGREE, names, said=said)
    lawful = list(dict.fromkeys(lawful_names(program.decode("latin-1"), ours, theirs)))
    return Verdict(Verdict.LAWFUL if lawful else Verdict.DIFFER, lawful, told, said)
