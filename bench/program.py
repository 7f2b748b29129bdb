"""A program that is measured: its commands over texts, and what they take."""
import os
import re
import subprocess
import time

from texts import ARRAY, WORLD, counted_to, regions

STEPS = 100_000  # steps of a run whose instructions are counted
ENTRIES = 1_000_000  # as many as a journal may have


class Bench:
    """The program, and a folder for the files of its texts."""

    def __init__(self, program, folder):
        self.program, self.folder, self.made = program, folder, {}

    def file(self, text):
        """A file of this text."""
        if text not in self.made:
            self.made[text] = f"{self.folder}/{len(self.made)}"
            with open(self.made[text], "w", encoding="utf-8") as file:
                file.write(text)
        return self.made[text]

    def run(self, program, world, schedule):
        return [self.program, "run", self.file(program), self.file(world), "--schedule", self.file(schedule)]

    def replay(self, program, world, journal):
        return [self.program, "replay", self.file(program), self.file(world), self.file(journal)]

    def check(self, program):
        return [self.program, "check", self.file(program)]

    def journal(self, command):
        """The journal of a run."""
        report = subprocess.run(command, check=True, capture_output=True, text=True).stdout
        return next(line[8:] for line in report.splitlines() if line.startswith("journal"))

    def instructions(self, command):
        """The processor's instructions in a run of a command."""
        words = ["valgrind", "--tool=callgrind", "--callgrind-out-file=/dev/null", *command]
        told = subprocess.run(words, check=True, capture_output=True, text=True, env={**os.environ, "LC_ALL": "C"}).stderr
        return int(re.search(r"Collected : (\d+)", told)[1])

    def seconds(self, command):
        """The fastest of twenty runs of a command."""
        best = None
        for _ in range(20):
            start = time.perf_counter()
            subprocess.run(command, check=True, stdout=subprocess.DEVNULL, stderr=subprocess.DEVNULL)
            took = time.perf_counter() - start
            best = took if best is None else min(best, took)
        return best

    def a_step(self, program, world, schedule=f"1*{STEPS}\n"):
        """The instructions of a step, beyond a run of no step."""
        return (self.instructions(self.run(program, world, schedule)) - self.instructions(self.run(program, world, ""))) / STEPS

    def a_worker_step(self):
        """The instructions of a step that a worker takes, beyond a shorter run by one worker."""
        commands = [[self.program, "run", self.file(counted_to(end)), self.file(WORLD), "--workers"] for end in (12_000, 2_000)]
        (long, most), (short, least) = ((self.instructions(it), len(self.journal(it).split())) for it in commands)
        return (long - short) / (most - least)

    def an_entry(self, program, world):
        """The instructions of an entry of a replay, beyond an empty journal."""
        journal = self.journal(self.run(program, world, f"1*{STEPS}\n"))
        return (self.instructions(self.replay(program, world, journal)) - self.instructions(self.replay(program, world, ""))) / STEPS

    def an_element(self, call):
        """The instructions of an element of a region, of 100 regions of 1,000 elements."""
        long, short = (self.instructions(self.run(regions(call, count), ARRAY, "1*10000\n")) for count in (1000, 0))
        return (long - short) / 100_000

    def a_cell(self, program, world, cells):
        """The instructions of a collection, by cells of the heap."""
        after, before = (self.instructions(self.run(program, world, f"1*6{word}\n")) for word in (" c", ""))
        return (after - before) / cells
