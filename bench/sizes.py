"""Texts of any size, of which `bench/run` shows how cost grows: programs within the limits of docs/LANGUAGE.md, and worlds within those of docs/WORLDS.md."""
from texts import wide

MOST_BYTES = 4_194_304  # of a text
BLOCK = 16_000  # bytes of a function, of which 256 fill a text


def method(name, body, parameters=""):
    return f"JNIEXPORT void JNICALL Java_A_{name}(JNIEnv *env, jclass cls{parameters})\n{{\n{body}    return;\n}}\n"


def methods(count, body, parameters=""):
    return "".join(method(f"f{f}", body, parameters) for f in range(count))


def filled(lines, room=BLOCK):
    """As many of the lines, in turn, as have room."""
    return "".join(lines) * (room // len("".join(lines)))


def one_function(count):
    """One function of this many statements, each of one step, so that 65,535 fill a text."""
    name = "object_whose_monitor_is_entered_and_left"
    calls = f"    (*env)->MonitorEnter(env, {name});\n", f"    (*env)->MonitorExit(env, {name});\n"
    return method("f", "".join(calls[i % 2] for i in range(count)), f", jobject {name}")


def nested(count):
    """Functions of `if`s nested 24 deep."""
    lines = ["if (n > 0) {\n"] * 24 + ["put_jint(n);\n"] + ["}\n"] * 24
    return methods(count, filled(lines), ", jint n")


def named(functions, names):
    """Functions that declare this many numbers, in lines of 63 bytes."""
    return methods(functions, "".join(f"    uint32_t number_of_all_that_are_declared_{i:03} = 12u + 1{i:02}u;\n" for i in range(names)))


def referring(functions, names):
    """Functions that declare this many references, in lines of 65 bytes."""
    return methods(functions, "".join(f"    jobject reference_{i:03} = (*env)->NewLocalRef(env, cls); /**/\n" for i in range(names)))


def all_kinds(count):
    """Functions of all kinds of statements."""
    return f"static jobject kept = NULL;\nstatic jweak weak = NULL;\n{methods(count, ''.join(map(kinds, range(9))), ', jint n, jobject object, jintArray array')}"


def kinds(i):
    """All kinds of statements, with names that have this number."""
    return f"""    uint32_t count{i} = 0u;
    jint numbers{i}[8] = {{0}};
    jboolean is{i} = JNI_FALSE;
    while (count{i} < 8u) {{
        numbers{i}[count{i}] = (jint)(count{i} * 3u ^ 0x{i}fu);
        if (numbers{i}[count{i}] > n && !(count{i} == 7u) || count{i} % 2u == 1u) {{
            put_jint(numbers{i}[count{i}]);
        }} else {{
            n = (jint)((uint32_t)n + (count{i} << 2u));
        }}
        count{i} = count{i} + 1u;
    }}
    jfieldID field{i} = (*env)->GetFieldID(env, cls, "number{i}", "I");
    jint old{i} = (*env)->GetIntField(env, object, field{i});
    (*env)->SetIntField(env, object, field{i}, (jint)((uint32_t)old{i} + 1u));
    if ((*env)->PushLocalFrame(env, 4) == 0) {{
        jobject again{i} = (*env)->NewLocalRef(env, object);
        is{i} = (*env)->IsSameObject(env, again{i}, object);
        (*env)->DeleteLocalRef(env, again{i});
        jobject none{i} = (*env)->PopLocalFrame(env, NULL);
    }}
    jint *elements{i} = (*env)->GetIntArrayElements(env, array, NULL);
    if (elements{i} == NULL) {{
        return;
    }}
    elements{i}[0] = elements{i}[1];
    (*env)->ReleaseIntArrayElements(env, array, elements{i}, JNI_COMMIT);
    (*env)->ReleaseIntArrayElements(env, array, elements{i}, 0);
    (*env)->MonitorEnter(env, object);
    kept = (*env)->NewGlobalRef(env, object);
    (*env)->DeleteGlobalRef(env, kept);
    weak = (*env)->NewWeakGlobalRef(env, object);
    (*env)->DeleteWeakGlobalRef(env, weak);
    (*env)->MonitorExit(env, object);
    jmethodID method{i} = (*env)->GetStaticMethodID(env, cls, "f{i}", "(ILjava/lang/Object;[I)V");
    (*env)->CallStaticVoidMethod(env, cls, method{i}, n, object, array);
    jstring text{i} = (*env)->NewStringUTF(env, "a text with all kinds of statements");
    jobject made{i} = (*env)->AllocObject(env, cls);
    put_jint((jint)is{i});
"""


# Texts of some 40,000, 400,000 and 4,194,304 bytes: what they are, what makes them, and of which numbers.
CHECKED = (
    ("256 functions of 1, 28 and 290 statements", wide, (1, 28, 290)),
    ("one function of 550, 5,500 and 57,800 statements", one_function, (550, 5_500, 57_800)),
    ("2, 25 and 256 functions of `if`s nested 24 deep", nested, (2, 25, 256)),
    ("256 functions of 1, 24 and 250 number names", lambda names: named(256, names), (1, 24, 250)),
    ("2, 25 and 256 functions of 250 number names", lambda functions: named(functions, 250), (2, 25, 256)),
    ("256 functions of 1, 24 and 250 references", lambda names: referring(256, names), (1, 24, 250)),
    ("2, 25 and 256 functions of 240 references", lambda functions: referring(functions, 240), (2, 25, 256)),
    ("2, 25 and 256 functions of all kinds of statements", all_kinds, (2, 25, 256)),
)


def branching(references, branches):
    """A function of this many references and this many `if`s, each of four steps."""
    return method("f", "".join(f"jobject a{i}=NULL;" for i in range(references)) + "if(0==0){}" * branches)


def begun_alike(functions):
    """Functions whose long names, of 410 KB together, differ in their ends alone."""
    name = "x" * (410_000 // functions)
    return "".join(f"JNIEXPORT void JNICALL Java_A_{name}{f:03}(JNIEnv*env,jclass c){{return;}}\n" for f in range(functions))


def with_statics(functions):
    """256 statics with long names, which are some 100 KB, and functions with none."""
    name = "x" * 400
    return "".join(f"static jobject {name}{s:03}=NULL;\n" for s in range(256)) + methods(functions, "")


def passing(names, calls):
    """A function of this many names of `jint`s, and of calls that are passed 16 `jint`s each, those that are declared last."""
    declared = "".join(f"jint a{i:03}=0;" for i in range(names))
    passed = ",".join(f"a{(names - 1 - i) % names:03}" for i in range(16))
    return method("f", f"jmethodID m=NULL;{declared}" + f"(*env)->CallStaticVoidMethod(env,cls,m,{passed});" * calls)


def with_fields(fields, name):
    """A world of 100 classes that declare this many fields each, whose names begin alike."""
    lines = "".join(f"class C{c}\n" + "".join(f"field C{c} {'x' * name}{f:02} I\n" for f in range(fields)) for c in range(100))
    return f"heap 4096\nclass A\n{lines}thread Java_A_f\n"


def classes(depth, prefix=""):
    """The lines of classes each of which is below the one before it."""
    return f"class {prefix}C0\n" + "".join(f"class {prefix}C{c} extends {prefix}C{c - 1}\n" for c in range(1, depth))


def searched_field(depth):
    """A loop that looks a field up in the class of this depth, and its world: each class declares 63 fields, and the topmost the one that is looked up."""
    text = f"JNIEXPORT void JNICALL Java_C{depth - 1}_f(JNIEnv *env, jclass cls)\n{{\n    while (cls != NULL) {{\n" \
        '        jfieldID field = (*env)->GetFieldID(env, cls, "n", "I");\n    }\n    return;\n}\n'
    fields = "".join(f"field C{c} m{f:02} I\n" for c in range(depth) for f in range(63))
    return text, f"heap 4096\n{classes(depth)}{fields}field C0 n I\nthread Java_C{depth - 1}_f\n"


def searched_method(depth, functions, long=0):
    """A loop that looks a method up in the class of this depth, and its world: the topmost class has the method, after functions of no class that is there."""
    prefix = "x" * long
    text = "".join(f"JNIEXPORT void JNICALL Java_{prefix}D_f{f:03}(JNIEnv *env, jclass cls) {{ return; }}\n" for f in range(functions - 2))
    text += f"JNIEXPORT void JNICALL Java_{prefix}C0_g(JNIEnv *env, jclass cls) {{ return; }}\n"
    text += f"JNIEXPORT void JNICALL Java_{prefix}C{depth - 1}_f(JNIEnv *env, jclass cls)\n{{\n    while (cls != NULL) {{\n" \
        '        jmethodID found = (*env)->GetStaticMethodID(env, cls, "g", "()V");\n    }\n    return;\n}\n'
    return text, f"heap 4096 methods\n{classes(depth, prefix)}thread Java_{prefix}C{depth - 1}_f\n"


# A loop that enters monitors and leaves none: six steps a turn.
ENTERS = method("f", """    while (cls != NULL) {
        jobject object = (*env)->AllocObject(env, cls);
        (*env)->MonitorEnter(env, object);
        (*env)->DeleteLocalRef(env, object);
    }
""")


def leaves(later):
    """A program that makes 200 local references, and this many more, and deletes the first 200: its steps before that are 402 and six for each that is more."""
    names = "".join(f"    jobject r{i} = (*env)->NewLocalRef(env, cls);\n" for i in range(200))
    more = f"    uint32_t i = 0u;\n    while (i < {later}u) {{\n        jobject more = (*env)->NewLocalRef(env, cls);\n        i = i + 1u;\n    }}\n"
    gone = "".join(f"    (*env)->DeleteLocalRef(env, r{i});\n" for i in range(200))
    return method("f", f"    jint refused = (*env)->EnsureLocalCapacity(env, 1000);\n{names}{more}{gone}")


# An object that a weak reference alone refers to, after three steps.
WEAKENS = "static jweak weak = NULL;\n" + method("f", """    jobject gone = (*env)->AllocObject(env, cls);
    weak = (*env)->NewWeakGlobalRef(env, gone);
    (*env)->DeleteLocalRef(env, gone);
""", ", jobject object")


def array_of(count):
    """A loop that makes an array that dies: five steps a turn."""
    return method("f", f"""    while (cls != NULL) {{
        jintArray array = (*env)->NewIntArray(env, {count});
        (*env)->DeleteLocalRef(env, array);
    }}
""")
