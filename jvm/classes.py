"""The Java classes of a program and a world, as class files (The Java Virtual Machine Specification, chapter 4).

They are written as bytes and not as Java, which has no words for some of them: a field may be called `new`, and a class in a package may be below one that is
in none. A reference that a native method takes or gives is an Object here, as any object may be given there; where a program looks for methods, it is of the
Java type of its C type, as their signatures are compared (JNI Specification, chapter 3, "Type Signatures"). The version is that of Java 5."""
import re
import struct


def lang(names):
    """Names of classes of java.lang."""
    return [f"java/lang/{name}" for name in names.split()]


# The exceptions that functions of the JNI throw, all that every world has, and all classes of the library that it has.
THROWN = lang(
    "NoSuchFieldError NoClassDefFoundError OutOfMemoryError ArrayIndexOutOfBoundsException StringIndexOutOfBoundsException "
    "ArrayStoreException NegativeArraySizeException IllegalMonitorStateException"
)
THROWABLES = THROWN + lang("Throwable Error LinkageError IncompatibleClassChangeError VirtualMachineError Exception RuntimeException IndexOutOfBoundsException")
LIBRARY = THROWABLES + lang("Object Class String")
NUMBER_ARRAYS = ["[I", "[S", "[B", "[C"]
ABSTRACT = "java/lang/VirtualMachineError"
OBJECT = "Ljava/lang/Object;"
# A world of methods has one class more than each, with that of its arrays; functions of the JNI throw it too.
METHOD_ERROR = "java/lang/NoSuchMethodError"
# The Java types of references, where a program looks for methods.
TYPES = {
    "jobject": OBJECT, "jarray": OBJECT, "jclass": "Ljava/lang/Class;", "jstring": "Ljava/lang/String;", "jthrowable": "Ljava/lang/Throwable;",
    "jintArray": "[I", "jshortArray": "[S", "jbyteArray": "[B", "jcharArray": "[C", "jobjectArray": "[Ljava/lang/Object;",
}
MESSAGE = "(Ljava/lang/String;)V"
FUNCTION = re.compile(r"JNIEXPORT (\w+) JNICALL (\w+) \( JNIEnv \* \w+ , jclass \w+ ((?:, \w+ \w+ )*)\)")
CLASS_NAME = re.compile(r"[A-Za-z]\w*(?:/[A-Za-z]\w*)*", re.A)
NOT_CODE = re.compile(r'/\*.*?\*/|//[^\n]*|"[^"\n]*"', re.S)
TEXT = re.compile(r'"([^"\n]*)"|/\*.*?\*/|//[^\n]*', re.S)
PUBLIC, STATIC, SUPER, NATIVE = 0x0001, 0x0008, 0x0020, 0x0100


class NotMade(Exception):
    """What a program or a world has that no Java virtual machine is given."""


class Class:
    """What a class declares: names with their types."""

    def __init__(self, superclass):
        self.superclass, self.fields, self.statics, self.natives = superclass, [], [], []


def natives_of(program):
    """The functions of a program, each with the type of its native method."""
    plain = " ".join(re.findall(r"\w+|[^\w\s]", NOT_CODE.sub(" ", program)))
    references = TYPES if re.search(r"\bGetStaticMethodID\b", plain) else {}
    types = {"void": "V", "jint": "I", **references}
    for result, name, parameters in FUNCTION.findall(plain):
        given = (types.get(it, OBJECT) for it in re.findall(r", (\w+) \w+", parameters))
        yield name, f"({''.join(given)}){types.get(result, OBJECT)}"


def method_of(function):
    """The class and the native method that a function's name stands for (JNI Specification, chapter 2, "Resolving Native Method Names")."""
    path = re.sub("_(1?)", lambda it: "_" if it[1] else "/", function.removeprefix("Java_"))
    return path.rpartition("/")[::2]


def declared_in(world):
    """The classes that a world declares, by their names."""
    found = {}
    for words in (line.split(" ") for line in world.split("\n")):
        if words[0] == "class":
            found[words[1]] = Class(words[3] if len(words) > 2 else "java/lang/Object")
        elif words[0] == "field":
            found[words[1]].fields.append((words[2], words[3]))
        elif words[0] == "static":
            found[words[1]].statics.append((words[2], words[3]))
        elif words[0] in ("thread", "call") and method_of(words[1])[0] not in found:
            raise NotMade("a native method of a class of the library")
        elif words[0] == "object" and words[2] == ABSTRACT:
            raise NotMade("an object of an abstract class")
    return found


def classes_of(program, world):
    """The classes that a world declares, by their names, with the program's native methods."""
    try:
        found = declared_in(world)
    except LookupError as wrong:
        raise NotMade("a world that isn't well formed") from wrong
    if not all(map(CLASS_NAME.fullmatch, found)):
        raise NotMade("a world that isn't well formed")
    if any(name.startswith(("java/", "jnirun/")) for name in found):
        raise NotMade("a class in a package that is taken")
    for function, type_ in natives_of(program):
        name, method = method_of(function)
        if name in found:
            found[name].natives.append((method, type_))
    return found


def throwables_of(classes):
    """The names of all classes below java/lang/Throwable, and its own."""
    found = {*THROWABLES, METHOD_ERROR}
    for name, it in classes.items():
        if it.superclass in found:
            found.add(name)
    return found


def library_of(world):
    """The classes of the library that a world has."""
    return LIBRARY + [METHOD_ERROR] if re.match(r"\n*heap \d+ methods$", world, re.M) else LIBRARY


def asked_of(program, world, classes):
    """The classes that a program may ask for, and that its world doesn't have."""
    plain = {*library_of(world), *classes}
    known = {*plain, *(f"[L{it};" for it in plain), *NUMBER_ARRAYS}
    return [text for text in dict.fromkeys(TEXT.findall(program)) if text not in known and re.fullmatch(r"\[*[\w/$]+;?", text)]


def first_number(world, classes):
    """The number of a world's first object: before it are the class objects, with those of arrays, and an OutOfMemoryError object."""
    return 2 * (len(library_of(world)) + len(classes)) + len(NUMBER_ARRAYS) + 2


def lines_of(program, world, classes):
    """A world's lines for World.java: a class and a method stand for a function, and beside them are the first number and the classes that are asked for."""
    yield f"first {first_number(world, classes)}"
    for line in world.split("\n"):
        word, _, rest = line.partition(" ")
        if word in ("thread", "call"):
            function, *arguments = rest.split(" ")
            line = " ".join([word, *method_of(function), *arguments])
        yield line
    for name in asked_of(program, world, classes):
        yield f"asks {name}"


class Constants:
    """The constant pool of a class file."""

    def __init__(self):
        self.places = {}

    def place(self, constant):
        return self.places.setdefault(constant, len(self.places) + 1)

    def text(self, text):
        coded = text.encode()
        return self.place(struct.pack(">BH", 1, len(coded)) + coded)

    def class_(self, name):
        return self.place(struct.pack(">BH", 7, self.text(name)))

    def method(self, class_, name, type_):
        both = self.place(struct.pack(">BHH", 12, self.text(name), self.text(type_)))
        return self.place(struct.pack(">BHH", 10, self.class_(class_), both))

    def member(self, access, name, type_, *attributes):
        return struct.pack(">HHHH", access, self.text(name), self.text(type_), len(attributes)) + b"".join(attributes)

    def constructor(self, superclass):
        """A constructor that hands its message on: aload_0, aload_1, invokespecial, return."""
        code = struct.pack(">BBBHB", 0x2A, 0x2B, 0xB7, self.method(superclass, "<init>", MESSAGE), 0xB1)
        body = struct.pack(">HHI", 2, 2, len(code)) + code + struct.pack(">HH", 0, 0)
        return self.member(PUBLIC, "<init>", MESSAGE, struct.pack(">HI", self.text("Code"), len(body)) + body)


def class_file(name, it, is_throwable):
    """The bytes of a class's file. Only what ThrowNew may make has a constructor."""
    pool = Constants()
    names = struct.pack(">HHHH", PUBLIC | SUPER, pool.class_(name), pool.class_(it.superclass), 0)
    fields = [pool.member(PUBLIC, *field) for field in it.fields] + [pool.member(PUBLIC | STATIC, *field) for field in it.statics]
    methods = [pool.member(PUBLIC | STATIC | NATIVE, *native) for native in it.natives]
    if is_throwable:
        methods.append(pool.constructor(it.superclass))
    members = b"".join(struct.pack(">H", len(them)) + b"".join(them) for them in (fields, methods))
    head = struct.pack(">IHHH", 0xCAFEBABE, 0, 49, len(pool.places) + 1)
    return head + b"".join(pool.places) + names + members + struct.pack(">H", 0)
