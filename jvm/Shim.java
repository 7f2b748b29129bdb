package jnirun;

/** What the runner needs in C (shim.c). */
final class Shim {
    private Shim() {}

    /** Opens the report, and notes where this virtual machine copies and jnirun doesn't, or the other way round. */
    static native void begin(String report);

    /** Writes a line of the report. */
    static native void say(String line);

    /** Starts a thread, which makes {@link Runner#calls} with its number, and waits until it has ended. */
    static native void thread(Class<?> runner, int number);

    /** A new object, of which no constructor has run. */
    static native Object allocate(Class<?> of);

    /** Runs the constructor of Throwable. */
    static native void initialise(Throwable exception, String message);

    /** How many objects are kept by global references of the program. */
    static native int globals();

    /** One of them, in the order in which they came to be kept. */
    static native Object global(int at);
}
