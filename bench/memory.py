"""How much memory whole runs take at most."""
import subprocess

import sizes
from program import ENTRIES
from texts import ARRAY, CHAIN, EIGHT, FIELD, FIELDS, IN_COPY, IN_LOCAL, IN_VIEW, LOOP, MONITORS, NODES, REFERENCES, TAKES, WORLD, moves, native, objects, wide

SMALL = "heap 512\nclass A\nfield A next LA;\nfield A n I\nthread Java_A_f\n"
SHIFTS = native("""    uint32_t word = 1u;
    while (cls != NULL) {
        word = word << 3u ^ word >> 5u;
        if (word == 7u) {
            word = 1u;
        }
    }""")
DIES = native("""    while (cls != NULL) {
        jobject object = (*env)->AllocObject(env, cls);
        (*env)->DeleteLocalRef(env, object);
    }""")
THROWS = native("""    jobject out = (*env)->FindClass(env, "java/lang/RuntimeException");
    while (cls != NULL) {
        (*env)->ThrowNew(env, out, "again");
        (*env)->ExceptionClear(env);
    }""")


def lists(cells):
    """A loop that makes lists of a fourth of a heap, one after another, so that each is garbage when the next is made; and its world."""
    return native(f"""    jfieldID field = (*env)->GetFieldID(env, cls, "next", "LA;");
    while (cls != NULL) {{
        jobject last = (*env)->AllocObject(env, cls);
        uint32_t i = 0u;
        while (i < {cells // 20}u) {{
            jobject next = (*env)->AllocObject(env, cls);
            (*env)->SetObjectField(env, next, field, last);
            (*env)->DeleteLocalRef(env, last);
            last = (*env)->NewLocalRef(env, next);
            (*env)->DeleteLocalRef(env, next);
            i = i + 1u;
        }}
        (*env)->DeleteLocalRef(env, last);
    }}"""), SMALL.replace("512", str(cells))


def queue(cells):
    """A loop that puts an object at a queue's end and takes one from its front, where the queue has a fourth of the heap; and its world."""
    return native(f"""    jfieldID field = (*env)->GetFieldID(env, cls, "next", "LA;");
    jobject last = (*env)->AllocObject(env, cls);
    jobject first = (*env)->NewLocalRef(env, last);
    uint32_t i = 0u;
    while (cls != NULL) {{
        jobject next = (*env)->AllocObject(env, cls);
        (*env)->SetObjectField(env, last, field, next);
        (*env)->DeleteLocalRef(env, last);
        last = (*env)->NewLocalRef(env, next);
        (*env)->DeleteLocalRef(env, next);
        if (i == {cells // 20}u) {{
            jobject second = (*env)->GetObjectField(env, first, field);
            (*env)->DeleteLocalRef(env, first);
            first = (*env)->NewLocalRef(env, second);
            (*env)->DeleteLocalRef(env, second);
        }} else {{
            i = i + 1u;
        }}
    }}"""), SMALL.replace("512", str(cells))


def arrays(count):
    """A program that fills an array with objects that refer to arrays of nine numbers each, 19 steps each; and its world."""
    return native(f"""    jfieldID field = (*env)->GetFieldID(env, cls, "of", "[I");
    jobjectArray all = (*env)->NewObjectArray(env, {count}, cls, NULL);
    jint i = 0;
    while (i < {count}) {{
        jobject object = (*env)->AllocObject(env, cls);
        jintArray numbers = (*env)->NewIntArray(env, 9);
        (*env)->SetObjectField(env, object, field, numbers);
        (*env)->SetObjectArrayElement(env, all, i, object);
        (*env)->DeleteLocalRef(env, numbers);
        (*env)->DeleteLocalRef(env, object);
        i = (jint)((uint32_t)i + 1u);
    }}"""), "heap 1048576\nclass A\nfield A of [I\nthread Java_A_f\n"


class Memory:
    """What is measured of memory, for a program that `Bench` runs: the row's words, and MB; what an unproved program of the same job took, where that was
    measured; and the ratio of both."""

    def most(self, command):
        """The most memory of a run of a command, in MB of 1,024 KB. GNU time counts it: what the system tells of a child begins with what its parent has."""
        told = f"{self.folder}/memory"
        subprocess.run(["/usr/bin/time", "-f", "%M", "-o", told, *command], check=True, stdin=subprocess.DEVNULL, stdout=subprocess.DEVNULL)
        with open(told, encoding="utf-8") as file:
            return int(file.read()) / 1024

    def memory(self):
        for what, command, beside in self.whole_runs():
            most = self.most(command)
            yield what, [most, beside, most / beside if beside else None]

    def whole_runs(self):
        """What is measured, and the MB of the unproved program."""
        yield from self.checks()
        whole = f"1*{ENTRIES}\n"
        for what, program, world, beside in (
            ("the first loop", LOOP, WORLD, 4.8), ("shifts, exclusive or, an `if`", SHIFTS, WORLD, None), ("elements of a local array", IN_LOCAL, ARRAY, None),
            ("elements of a copy", IN_COPY, ARRAY, None), ("elements of a view", IN_VIEW, ARRAY, None), ("monitors, one thread", MONITORS, WORLD, None),
            ("a field", FIELD, FIELDS, None), ("local references", REFERENCES, WORLD, None), ("exceptions", THROWS, WORLD, None),
            ("objects that die, heap of 512", DIES, SMALL, None), ("lists with garbage, heap of 4,096", *lists(4_096), None),
            ("lists with garbage, heap of 32,768", *lists(32_768), None), ("lists with garbage, heap of 1,048,576", *lists(1_048_576), None),
            ("a queue that moves, heap of 32,768", *queue(32_768), None), ("a queue that moves, heap of 1,048,576", *queue(1_048_576), None),
        ):
            yield f"run of 1,000,000 steps: {what}", self.run(program, world, whole), beside
        yield "run of 1,000,000 steps: eight threads, a word a turn", self.run(LOOP, EIGHT, "1 2 3 4 5 6 7 8\n" * (ENTRIES // 8)), None
        yield "run of 1,000,000 steps: monitors, eight threads by turns", self.run(MONITORS, EIGHT, "1 2 3 4 5 6 7 8\n" * (ENTRIES // 8)), None
        yield "collection: a chain of 500,005 cells", self.run(CHAIN, NODES, "1*800005 c\n"), None
        yield "collection: 30,000 objects with arrays of 9", self.run(*arrays(30_000), "1*570000 c\n"), None
        yield "collection: an array of 1,000,000 numbers", self.run(moves(1_000_000), NODES, "1*6 c\n"), None
        for what, program, world, beside in (
            ("the first loop", LOOP, WORLD, 7.7), ("a field", FIELD, FIELDS, None), ("exceptions", THROWS, WORLD, 7.8), ("objects that die", DIES, SMALL, None),
        ):
            yield f"replay of 1,000,000 entries: {what}", self.replay(program, world, self.journal(self.run(program, world, whole))), beside
        dies = sizes.array_of(100_000)
        yield "replay: 100 arrays of 100,000 numbers that die", self.replay(dies, NODES, self.journal(self.run(dies, NODES, "1*501\n"))), None
        yield "a world of 65,536 objects, loaded and reported", self.run(TAKES, objects(65_536), ""), 16.1

    def checks(self):
        yield "check: 256 functions of 60 statements, 838 KB", self.check(wide(59)), 15.8
        yield "check: 256 functions of 240 statements, 3.4 MB", self.check(wide(239)), 56
        yield "check: one function of 4,000 statements", self.check(sizes.one_function(4_000)), None
        yield "check: 64 functions of `if`s nested 24 deep, 1 MB", self.check(sizes.nested(64)), None
        yield "check: 256 functions of 250 number names, 4.1 MB", self.check(sizes.named(256, 250)), None
        yield "check: 256 functions of 240 references, 3 MB", self.check(sizes.referring(256, 240).replace(" /**/", "")), 36
        yield "check: 64 functions of all kinds of statements, 1 MB", self.check(sizes.all_kinds(64)), None
