"""A program that is run again and again by refusing.c, which refuses it what it asks of the system: memory, threads, the bytes of its files, and room for what it writes."""
import itertools
import os
import re
import shutil
import struct
import subprocess
import sys
from collections import deque
from importlib.machinery import SourceFileLoader

sys.dont_write_bytecode = True
HERE = os.path.dirname(os.path.abspath(__file__))
TOP = os.path.dirname(HERE)
TRIAL, RECORD = struct.Struct("8q"), struct.Struct("6q")
# No request is refused, and this one is the last.
NONE, LAST = (0, 0), 2**62
AHEAD = 200

# How cases are read, and which words ask for their runs.
run = SourceFileLoader("run", f"{HERE}/run").load_module()


def needs_gcc(what):
    """Says that something is not tried where there is no gcc, and is content."""
    if not shutil.which("gcc"):
        print(f"cases: {what} is not tried, there is no gcc", file=sys.stderr)
        sys.exit(0)


def built(room):
    """The library of refusing.c, built in this folder."""
    library = f"{room}/refusing.so"
    subprocess.run(["gcc", "-Wall", "-Wextra", "-Werror", "-O2", "-shared", "-fPIC", "-o", library, f"{HERE}/refusing.c"], check=True)
    return library


def lay(room, texts):
    """Writes texts to files of this folder."""
    for name, text in texts.items():
        with open(f"{room}/{name}", "wb") as it:
            it.write(text)


class Answer:
    """How a run went: its status (negative, where a signal ended it) with its two outputs, and how often it asked for memory and for a thread, and was refused."""

    def __init__(self, status, out, err, requests, starts, refused):
        self.told = (os.waitstatus_to_exitcode(status), out, err)
        self.requests, self.starts, self.refused = requests, starts, refused


class Trials:
    """A program with these words, in this folder, which so many processes run in turn."""

    def __init__(self, library, program, words, room, processes=1):
        how = {"LD_PRELOAD": library, "TRIALS": "1"}
        self.servers = [
            subprocess.Popen([program, *words], cwd=room, env={**os.environ, **how}, stdin=subprocess.PIPE, stdout=subprocess.PIPE) for _ in range(processes)
        ]
        self.asking, self.answering = itertools.cycle(self.servers), itertools.cycle(self.servers)

    def __enter__(self):
        return self

    def __exit__(self, *_):
        for server in self.servers:
            server.stdin.close()
        for server in self.servers:
            server.wait()
            server.stdout.close()

    def ask(self, requests=NONE, starts=NONE, readable=-1, room=-1, at_once=0, error=0):
        """Asks for a run in which the requests for memory, and for threads, with these numbers are refused, from the first to the last; and in which files give so
        many bytes, and standard output takes so many, by so many at once, before they fail with this error."""
        server = next(self.asking)
        server.stdin.write(TRIAL.pack(*requests, *starts, readable, room, at_once, error))
        server.stdin.flush()

    def answer(self):
        """The answer to the first run that was asked for and not answered."""
        told = next(self.answering).stdout
        status, asked, started, refused, out, err = RECORD.unpack(told.read(RECORD.size))
        return Answer(status, told.read(out), told.read(err), asked, started, refused)

    def run(self, **how):
        """The answer to a run."""
        self.ask(**how)
        return self.answer()

    def run_each(self, hows):
        """How each run is, and its answer. Some are asked for ahead of the answer that is read, fewer than a pipe holds."""
        asked = deque()
        for how in hows:
            self.ask(**how)
            asked.append(how)
            if len(asked) > AHEAD:
                yield asked.popleft(), self.answer()
        for how in asked:
            yield how, self.answer()


def journal_of(report):
    """The words of a report's journal."""
    return re.search(rb"^journal ?(.*)\n\Z", report, re.M)[1] + b"\n"


def all_ways(case):
    """A case that is run by a schedule, by its name and its texts: so, again by its journal, and by workers."""
    both = {it: case.texts[it] for it in ("prog.c", "world")}
    yield case.name, case.texts
    yield f"{case.name} again by its journal", {**both, "journal": journal_of(case.output)}
    yield f"{case.name} by workers", {**both, "workers": b""}


def examples():
    """The examples, by their names and texts: they are checked, run, run again by their journals, and run by workers."""
    for folder in (f"{TOP}/examples", f"{TOP}/examples/buffers"):
        for case in run.cases_of_examples(folder):
            yield from all_ways(case) if "schedule" in case.texts else [(case.name, case.texts)]


def worked():
    """The texts of worked.cases, by their names: each program is checked, and run as its case says; one that passes is also run again by its journal, and by workers."""
    checked = set()
    for case in run.cases_of(f"{HERE}/worked.cases"):
        program = case.texts["prog.c"]
        if program not in checked:
            checked.add(program)
            yield f"{case.name}: its check", {"prog.c": program}
        if "schedule" in case.texts and case.status == 0:
            yield from all_ways(case)
        elif "world" in case.texts:
            yield case.name, case.texts


def is_open(texts):
    """Whether the order is open in which the threads step in a run of these texts."""
    return "workers" in texts and len(re.findall(rb"^thread ", texts["world"], re.M)) > 1


def words_of(texts):
    """The words that ask for a run of these texts."""
    return run.words_of(texts, "prog.c")
