"""The programs and the worlds that `bench/run` measures."""


def native(body, parameters=""):
    return f"JNIEXPORT void JNICALL Java_A_f(JNIEnv *env, jclass cls{parameters})\n{{\n{body}\n    return;\n}}\n"


LOOP = native("""    uint32_t count = 0u;
    uint32_t sum = 0u;
    while (count < 4294967295u) {
        sum = sum + count * 3u;
        count = count + 1u;
    }
    put_jint((jint)sum);""")


def counted_to(end):
    """A loop that ends after this many turns."""
    return native(f"""    uint32_t count = 0u;
    while (count < {end}u) {{
        count = count + 1u;
    }}""")


BARE = native("    while (cls != NULL) {\n    }")
MONITORS = native("""    while (cls != NULL) {
        (*env)->MonitorEnter(env, cls);
        (*env)->MonitorExit(env, cls);
    }""")
FIELD = native("""    jfieldID field = (*env)->GetFieldID(env, cls, "n", "I");
    while (object != NULL) {
        jint old = (*env)->GetIntField(env, object, field);
        (*env)->SetIntField(env, object, field, (jint)((uint32_t)old + 1u));
    }""", ", jobject object")
READ = native("""    jfieldID field = (*env)->GetFieldID(env, cls, "n", "I");
    while (object != NULL) {
        jint old = (*env)->GetIntField(env, object, field);
    }""", ", jobject object")
REFERENCES = native("""    while (cls != NULL) {
        jobject again = (*env)->NewLocalRef(env, cls);
        (*env)->DeleteLocalRef(env, again);
    }""")
COUNTED = native("""    uint32_t count = 0u;
    while (count < 4294967295u) {
        jobject again = (*env)->NewLocalRef(env, cls);
        (*env)->DeleteLocalRef(env, again);
        count = count + 1u;
    }""")
METHOD = native("""    jmethodID method = (*env)->GetStaticMethodID(env, cls, "g", "(I)I");
    while (method != NULL) {
        jint same = (*env)->CallStaticIntMethod(env, cls, method, 1);
    }""") + "JNIEXPORT jint JNICALL Java_A_g(JNIEnv *env, jclass cls, jint n)\n{\n    return n;\n}\n"
MAKES = native("""    uint32_t i = 0u;
    jint refused = (*env)->EnsureLocalCapacity(env, 1000);
    while (i < 1000u) {
        jobject object = (*env)->AllocObject(env, cls);
        i = i + 1u;
    }""")
RETURNS = native("")
TAKES = native("", ", jobject o")
WORLD = "heap 512\nclass A\nthread Java_A_f\n"
METHODS = "heap 512 methods\nclass A\nthread Java_A_f\n"
EIGHT = "heap 512\nclass A\n" + "thread Java_A_f\n" * 8
FIELDS = "heap 512\nclass A\nfield A n I\nobject @x A 0\nthread Java_A_f @x\n"
ARRAY = f"heap 8192\nclass A\narray @a I {' '.join(map(str, range(1, 1001)))}\nthread Java_A_f @a\n"
LARGE = "heap 1048576\nclass A\nthread Java_A_f\n"
MIDDLE = "heap 524288\nclass A\nthread Java_A_f\n"


def elements(acquired, name, released):
    """A loop that reads and writes an element: seven steps a turn, of which two read or write one."""
    return native(f"""    jint numbers[4] = {{0}};
    {acquired}
    while (array != NULL) {{
        {name}[1] = {name}[2];
    }}
    {released}""", ", jintArray array")


def acquired(getter):
    return f"jint *p = (*env)->Get{getter}(env, array, NULL); if (p == NULL) {{ return; }}"


IN_LOCAL = elements("", "numbers", "")
IN_COPY = elements(acquired("IntArrayElements"), "p", "(*env)->ReleaseIntArrayElements(env, array, p, 0);")
IN_VIEW = elements(acquired("PrimitiveArrayCritical"), "p", "(*env)->ReleasePrimitiveArrayCritical(env, array, p, 0);")


def regions(call, count):
    return native(f"""    jint numbers[1000] = {{0}};
    uint32_t i = 0u;
    while (i < 100u) {{
        (*env)->{call}IntArrayRegion(env, array, 0, {count}, numbers);
        i = i + 1u;
    }}""", ", jintArray array")


def moves(count):
    """An array that a collection moves, behind one that is gone, after six steps."""
    return native(f"""    jintArray unused = (*env)->NewIntArray(env, 100);
    jintArray moved = (*env)->NewIntArray(env, {count});
    (*env)->DeleteLocalRef(env, unused);""")


def wide(count=59):
    """256 functions of this many statements and a `return`."""
    functions = []
    for f in range(256):
        body = "".join(f"    put_jint((jint)(({f}u + {i}u) * 3u ^ ~(7u & {i}u)));\n" for i in range(count))
        functions.append(f"JNIEXPORT void JNICALL Java_A_f{f}(JNIEnv *env, jclass cls)\n{{\n{body}    return;\n}}\n")
    return "".join(functions)


def objects(count):
    """Objects each of which refers to the one before it."""
    lines = "".join(f"object @o{i} A @o{i - 1} {i}\n" for i in range(1, count))
    return f"heap 1048576\nclass A\nfield A next LA;\nfield A n I\nobject @o0 A null 0\n{lines}thread Java_A_f @o0\n"


def deep(depth, count):
    """Objects of a class with this many classes above it and with it, each of which declares 64 fields."""
    text = "heap 1048576\nclass A\n"
    for c in range(depth):
        text += f"class C{c} extends C{c - 1}\n" if c else "class C0\n"
        text += "".join(f"field C{c} f{f} I\n" for f in range(64))
    values = " 7" * (64 * depth)
    return text + "".join(f"object @o{o} C{depth - 1}{values}\n" for o in range(count)) + "thread Java_A_f\n"


CHAIN = native("""    jfieldID field = (*env)->GetFieldID(env, cls, "next", "LA;");
    jobject unused = (*env)->AllocObject(env, cls);
    jobject last = (*env)->AllocObject(env, cls);
    (*env)->DeleteLocalRef(env, unused);
    while (last != NULL) {
        jobject next = (*env)->AllocObject(env, cls);
        (*env)->SetObjectField(env, next, field, last);
        (*env)->DeleteLocalRef(env, last);
        last = (*env)->NewLocalRef(env, next);
        (*env)->DeleteLocalRef(env, next);
    }""")
NODES = "heap 1048576\nclass A\nfield A next LA;\nfield A n I\nthread Java_A_f\n"
HOLDS = moves(1_000_000) + native("""    jint refused = (*env)->EnsureLocalCapacity(env, 200);
    uint32_t i = 0u;
    while (i < 150u) {
        jobject object = (*env)->AllocObject(env, cls);
        i = i + 1u;
    }""").replace("Java_A_f", "Java_A_g")
HELD = "heap 1048576\nclass A\n" + "".join(f"object @o{i} A\n" for i in range(30)) + "thread Java_A_f\nthread Java_A_g\n"


class Heap:
    """A heap of 1,048,576 cells for its pauses: its name, the program and the world, the turns that make it, and of its marking the slices that are told."""

    def __init__(self, name, program, world, turns, slices):
        self.name, self.program, self.world, self.turns, self.slices = name, program, world, turns, slices


HEAPS = (
    # 75 objects are made at load, one thread refers to the array, and the other to 150 objects: all 226 are roots.
    Heap("the array", HOLDS, HELD, "1*6 2*1505",
         {1: "the first slice, of 64 small objects", 2: "the second, which marks the array too", 3: "the third, of 64 small objects", 4: "the last, which moves the array"}),
    # 45 objects are made at load, and a thread refers to the head of a list of 100,001.
    Heap("the list", CHAIN, NODES, "1*5 1*800000", {1: "the first slice", 782: "the one in the middle, of 1,564", 1564: "the last, which moves the list"}),
    # The same list, and 65,581 objects are made at load.
    Heap("the list among roots", CHAIN, objects(65536).replace(" @o0\n", "\n"), "1*5 1*800000", {1806: "the one in the middle of the list, of 2,588"}),
    # 65,581 objects are made at load.
    Heap("the world", TAKES, objects(65536), "", {1: "the first slice", 513: "the one in the middle, of 1,025", 1025: "the last, which moves nothing"}),
)
