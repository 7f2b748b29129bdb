"""How cost grows with texts, schedules, journals and heaps, and where limits are multiplied; and how much memory runs take."""
import functools

import sizes
from program import ENTRIES
from texts import CHAIN, EIGHT, FIELD, FIELDS, LOOP, RETURNS, TAKES, WORLD, objects

LENGTHS = (1_000, 10_000, 100_000, ENTRIES)  # of schedules and journals
HEAPS = (512, 4_096, 32_768, 262_144, 1_048_576)  # cells
LARGE = "heap 1048576\nclass A\nthread Java_A_f\n"
LEAST = 135  # cells that are in use where there is one class and no object
MB = 1_000_000


def turns(count):
    """A schedule of this many turns, a word each, of eight threads."""
    return "1 2 3 4 5 6 7 8\n" * (count // 8)


def lists(cells):
    """A world whose objects fill this part of half of its heap, each of five cells, and how many they are."""
    count = (cells // 2 - LEAST) // 5
    return objects(min(count, 65_536)).replace("heap 1048576", f"heap {cells}"), min(count, 65_536)


class Growth:
    """What is measured of growth, for a program that `Bench` runs: the row's words, and its numbers."""

    def texts(self):
        """Instructions of a byte."""
        for what, make, numbers in sizes.CHECKED:
            made = map(make, numbers)
            yield what, [self.instructions(self.check(text)) / len(text) for text in made]

    def lengths(self):
        """Instructions of a step or an entry, beyond a run of none."""
        def each(command, words):
            none = self.instructions(command(words(0)))
            return [(self.instructions(command(words(count))) - none) / count for count in LENGTHS]

        def replays(program, world, words):
            """The journals of runs by these words, which are as long."""
            return lambda count: self.journal(self.run(program, world, words(count))) if count else ""

        def by_word(count):
            return f"1*{count}\n" if count else ""

        yield "a step of the first loop, of a word `1*N`", each(functools.partial(self.run, LOOP, WORLD), by_word)
        yield "a step of eight threads, of a word each", each(functools.partial(self.run, LOOP, EIGHT), turns)
        yield "a step of the loop with a field", each(functools.partial(self.run, FIELD, FIELDS), by_word)
        yield "an entry of the replay of the first loop", each(functools.partial(self.replay, LOOP, WORLD), replays(LOOP, WORLD, by_word))
        yield "an entry of the replay of eight threads", each(functools.partial(self.replay, LOOP, EIGHT), replays(LOOP, EIGHT, turns))
        yield "an entry of the replay of the loop with a field", each(functools.partial(self.replay, FIELD, FIELDS), replays(FIELD, FIELDS, by_word))

    def heaps(self):
        """Instructions by cell of heaps."""
        begun = self.instructions(self.check(RETURNS))

        def counted(command, program, world, words=""):
            return self.instructions(command(program, world, words))

        empty = [counted(self.run, RETURNS, f"heap {cells}\nclass A\nthread Java_A_f\n") for cells in HEAPS]
        yield "load with no object, a cell of the heap", [(loaded - begun) / cells for loaded, cells in zip(empty, HEAPS)]
        run, replayed, collected, sliced, made = [], [], [], [], []
        for cells in HEAPS:
            world, count = lists(cells)
            used = LEAST + 5 * count
            loaded = counted(self.run, TAKES, world)
            run.append((loaded - begun) / used)
            replayed.append((counted(self.replay, TAKES, world) - begun) / used)
            collected.append((counted(self.run, TAKES, world, "c\n") - loaded) / used)
            sliced.append((counted(self.run, TAKES, world, f"s*{(count + 45 + 63) // 64}\n") - loaded) / used)
            count = (cells // 2 - LEAST) // 5
            chain = f"heap {cells}\nclass A\nfield A next LA;\nfield A n I\nthread Java_A_f\n"
            built = f"1*{5 + 8 * (count - 2)}"
            made.append((counted(self.run, CHAIN, chain, f"{built} c\n") - counted(self.run, CHAIN, chain, f"{built}\n")) / (LEAST + 5 * count))
        yield "load, run and report of a world whose objects fill half, a cell in use", run
        yield "the same by a replay", replayed
        yield "a collection of these objects, a cell in use", collected
        yield "all slices of a marking of them, a cell in use", sliced
        yield "a collection of a list that a program made, which fills half, a cell in use", made

    def products(self):
        """Where limits are multiplied: instructions at the least, at the most, and of all that texts, schedules or journals can have of it."""
        yield self.branches()
        yield self.alike()
        yield self.statics()
        yield self.passed()
        yield self.fields()
        yield self.searches("a `GetFieldID`, by the classes above: 1 and 100", 4, sizes.searched_field(1), sizes.searched_field(100))
        yield self.searches("a `GetStaticMethodID`, by functions and by the classes above: 3 and 1, 256 and 100", 4,
                            sizes.searched_method(1, 3), sizes.searched_method(100, 256))
        what, numbers = self.searches("the same with names of 1,500 bytes: 3 and 1, 256 and 50; in all with those of 15,000 bytes that fit", 4,
                                      sizes.searched_method(1, 3, 1_500), sizes.searched_method(50, 256, 1_500), 4)
        yield what, [*numbers[:2], 10 * numbers[2]]
        yield self.monitors("a `MonitorEnter`, by the monitors that are entered: 100 and 10,000", self.run)
        yield self.monitors("the same in a replay", self.replay)
        yield self.deleted()
        yield self.cleared()
        yield self.collected()
        yield self.arrays()

    def branches(self):
        """At most 40 functions of 10,000 `if`s fill a text."""
        def one(references):
            many, none = (self.instructions(self.check(sizes.branching(references, count))) for count in (10_000, 0))
            return (many - none) / 10_000

        least, most = one(0), one(240)
        return "an `if`, by the references of its function: 0 and 240", [least, most, 400_000 * most / MB]

    def alike(self):
        texts = sizes.begun_alike(2), sizes.begun_alike(256)
        least, most = (self.instructions(self.check(text)) / len(text) for text in texts)
        return "a byte of functions' names that begin alike, by functions: 2 and 256", [least, most, most * sizes.MOST_BYTES / MB]

    def statics(self):
        texts = sizes.with_statics(1), sizes.with_statics(256)
        least, most = (self.instructions(self.check(text)) / len(text) for text in texts)
        return "a byte of statics' names, by functions: 1 and 256", [least, most, most * sizes.MOST_BYTES / MB]

    def passed(self):
        """At most 22 functions of 1,800 calls with 16 arguments fill a text."""
        def one(names):
            many, none = (self.instructions(self.check(sizes.passing(names, count))) for count in (1_800, 0))
            return (many - none) / 1_800 / 16

        least, most = one(16), one(240)
        return "an argument of a method's call, by `jint` names of the function: 16 and 240", [least, most, 22 * 1_800 * 16 * most / MB]

    def fields(self):
        worlds = sizes.with_fields(1, 600), sizes.with_fields(64, 600)
        least, most = (self.instructions(self.run(RETURNS, world, "")) / len(world) for world in worlds)
        return "a byte of fields' names that begin alike, by fields of a class: 1 and 64", [least, most, most * len(worlds[1]) / MB]

    def searches(self, what, steps, least, most, taken=400):
        """A loop of so many steps with one call, beside a turn of three steps without it, which is little."""
        def one(program, world):
            many, none = (self.instructions(self.run(program, world, words)) for words in (f"1*{taken + 1}\n", "1\n"))
            return (many - none) * steps / taken

        least, most = one(*least), one(*most)
        return what, [least, most, most * ENTRIES / steps / MB]

    def monitors(self, what, command):
        """A loop of six steps enters the monitors, so that 166,666 are entered in 1,000,000 steps; each takes longer than the one before it."""
        @functools.cache
        def counted(turns):
            words = f"1*{6 * turns + 1}\n"
            return self.instructions(command(sizes.ENTERS, LARGE, words if command == self.run else self.journal(self.run(sizes.ENTERS, LARGE, words))))

        least, most = ((counted(turns) - counted(turns - 100)) / 100 for turns in (200, 10_100))
        longer, turns = (most - least) / 9_900, ENTRIES // 6
        return what, [least, most, (turns * least + longer * turns * turns / 2) / MB]

    def deleted(self):
        """A function that deletes the first 200 references, after which so many were made."""
        def one(later):
            program = sizes.leaves(later)
            whole = self.journal(self.run(program, LARGE, f"1*{ENTRIES}\n")).split()
            many, none = (self.instructions(self.replay(program, LARGE, " ".join(journal))) for journal in (whole, whole[:-201]))
            return (many - none) / 200

        least, most = one(0), one(790)
        return "a `DeleteLocalRef` in a replay, by the references made after it: some 100 and some 900", [least, most, most * ENTRIES / MB]

    def cleared(self):
        """A clearing, beside the same journal without it."""
        def one(count):
            world = objects(count)
            told = self.journal(self.run(sizes.WEAKENS, world, "1*4 c\n"))
            many, none = (self.instructions(self.replay(sizes.WEAKENS, world, journal)) for journal in (told, " ".join(told.split()[:4])))
            return many - none

        least, most = one(1), one(65_536)
        return "a clearing in a replay, by objects: 1 and 65,536", [least, most, most * ENTRIES / 4 / MB]

    def collected(self):
        def one(count):
            world = objects(count)
            many, none = (self.instructions(self.run(TAKES, world, words)) for words in ("c\n", ""))
            return many - none

        least, most = one(1), one(65_536)
        return "a collection, by objects: 1 and 65,536", [least, most, most * ENTRIES / MB]

    def arrays(self):
        """A loop of five steps makes an array that dies."""
        def one(count):
            many, none = (self.instructions(self.run(sizes.array_of(count), LARGE, words)) for words in ("1*51\n", "1\n"))
            return (many - none) / 10

        least, most = one(1), one(1_000_000)
        return "an array that is made and dies, by its length: 1 and 1,000,000", [least, most, most * ENTRIES / 5 / MB]
