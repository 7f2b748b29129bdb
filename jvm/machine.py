"""A Java virtual machine that runs programs in worlds.

JVM_JAVA is its command; else it is that of JAVA_HOME, or else of the JDK that has javac. JVM_OPTIONS are words for it, and JVM_SECONDS is how long a run may
take (20). gcc is needed, and a JDK for jni.h and javac: JAVA_HOME's where it has both, or else javac's."""
import os
import re
import shutil
import signal
import subprocess
import tempfile

import classes

HERE = os.path.dirname(os.path.abspath(__file__))
TOP = os.path.dirname(HERE)
SECONDS = float(os.environ.get("JVM_SECONDS", "20"))
OPTIONS = os.environ.get("JVM_OPTIONS", "").split()
# No core is kept, and no file is longer than 32 MB.
GUARDED = ["sh", "-c", 'ulimit -c 0; ulimit -f 65536; exec "$@"', "sh"]
# How many lines are told of what a virtual machine said that failed.
MOST_SAID = 12
# What a C compiler reads otherwise (docs/LANGUAGE.md, "What is out").
READ_OTHERWISE = re.compile(r"\\\s*\n|\?\?[=/'()!<>-]")


class Unusable(Exception):
    """What there isn't, so that nothing can be run."""


class Missing(Unusable):
    """What isn't installed."""


class Failed(Exception):
    """How a run went wrong on the virtual machine, and what its report had until then."""

    def __init__(self, why, report):
        super().__init__(why)
        self.report = report


def jdk():
    """The folder of a JDK."""
    javac = shutil.which("javac")
    homes = [os.environ.get("JAVA_HOME"), javac and os.path.dirname(os.path.dirname(os.path.realpath(javac)))]
    for home in filter(None, homes):
        if os.path.exists(f"{home}/include/jni.h") and os.path.exists(f"{home}/bin/javac"):
            return home
    raise Missing("JDK")


def command():
    """The command of the virtual machine."""
    home = os.environ.get("JAVA_HOME")
    return os.environ.get("JVM_JAVA") or (f"{home}/bin/java" if home and os.path.exists(f"{home}/bin/java") else f"{jdk()}/bin/java")


def within(seconds, words, **how):
    """Runs a command, with all that it starts, for so long. Answers its status, or None where it was stopped, and what it said."""
    with subprocess.Popen([*GUARDED, *words], stdin=subprocess.DEVNULL, stdout=subprocess.PIPE, stderr=subprocess.STDOUT, start_new_session=True, **how) as it:
        try:
            said = it.communicate(timeout=seconds)[0]
            return it.returncode, said.decode(errors="replace")
        except subprocess.TimeoutExpired:
            os.killpg(it.pid, signal.SIGKILL)
            return None, it.communicate()[0].decode(errors="replace")


def built(words):
    """Runs a compiler, which has to succeed."""
    status, said = within(600, words)
    if status != 0:
        raise RuntimeError(f"{words[0]}: {said}")


class Machine:
    """A virtual machine, by the last line that it says of its version, with the runner and the shim compiled for it in this folder."""

    def __init__(self, room):
        if not shutil.which("gcc"):
            raise Missing("gcc")
        self.room, self.java, home = room, [command(), *OPTIONS], jdk()
        status, said = within(SECONDS, [*self.java, "-version"])
        if status != 0:
            raise Unusable(f"virtual machine that starts: {' '.join(self.java)} -version says {said.strip()!r}")
        self.name = said.strip().split("\n")[-1]
        self.gcc = ["gcc", "-std=c99", "-O1", "-fPIC", "-pthread", "-w", "-I", f"{home}/include", "-I", f"{home}/include/linux"]
        sources = [f"{HERE}/{it}" for it in sorted(os.listdir(HERE)) if it.endswith(".java")]
        built([f"{home}/bin/javac", "-J-XX:TieredStopAtLevel=1", "-Xlint:-options", "--release", "8", "-d", f"{room}/runner", *sources])
        built([*self.gcc, "-D_POSIX_C_SOURCE=200809L", "-c", f"{HERE}/shim.c", "-o", f"{room}/shim.o"])

    def prepare(self, room, program, world):
        """Makes the library of a program, the classes of its world, and the world's lines."""
        text, lines = program.decode("latin-1"), world.decode("latin-1")
        if READ_OTHERWISE.search(text):
            raise classes.NotMade("a text that C reads otherwise")
        found = classes.classes_of(text, lines)
        throwables = classes.throwables_of(found)
        for name, it in found.items():
            path = f"{room}/classes/{name}.class"
            os.makedirs(os.path.dirname(path), exist_ok=True)
            with open(path, "wb") as file:
                file.write(classes.class_file(name, it, name in throwables))
        with open(f"{room}/world", "w", encoding="latin-1") as file:
            file.write("\n".join(classes.lines_of(text, lines, found)) + "\n")
        with open(f"{room}/prog.c", "wb") as file:
            file.write(program)
        shim = ["-I", f"{TOP}/include", "-include", f"{HERE}/shim.h"]
        status, said = within(SECONDS, [*self.gcc, *shim, "-shared", "-Wl,-z,defs", "-o", "prog.so", "prog.c", f"{self.room}/shim.o"], cwd=room)
        if status != 0:
            raise classes.NotMade("a text that gcc doesn't take: " + next((it for it in said.split("\n") if "error" in it), "it is stopped"))

    def run(self, program, world):
        """The lines of a program's report in a world, and what the virtual machine said beside it."""
        with tempfile.TemporaryDirectory(dir=self.room) as room:
            self.prepare(room, program, world)
            words = ["-cp", f"{self.room}/runner:{room}/classes", "jnirun.Runner", f"{room}/prog.so", f"{room}/world", f"{room}/report"]
            status, said = within(SECONDS, [*self.java, *words], cwd=room)
            report = []
            if os.path.exists(f"{room}/report"):
                with open(f"{room}/report", encoding="utf-8", errors="replace") as file:
                    report = file.read().splitlines()
        if status is None:
            raise Failed(f"it is stopped after {SECONDS:g} seconds", report)
        if status != 0:
            raise Failed("\n".join([f"it ends with status {status}", *said.strip().split("\n")[:MOST_SAID]]), report)
        return report, said
