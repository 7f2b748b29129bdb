package jnirun;

import java.io.IOException;
import java.lang.reflect.InvocationTargetException;
import java.nio.charset.StandardCharsets;
import java.nio.file.Files;
import java.nio.file.Paths;
import java.util.ArrayList;
import java.util.List;

/** Runs a program in a world, the calls of one thread after those of another: {@code Runner LIBRARY WORLD REPORT}. */
public final class Runner {
    private static final World WORLD = new World();
    private static final List<String> ENDS = new ArrayList<>();

    private Runner() {}

    public static void main(String[] words) throws IOException, ReflectiveOperationException {
        System.load(words[0]);
        Shim.begin(words[2]);
        for (String line : Files.readAllLines(Paths.get(words[1]), StandardCharsets.ISO_8859_1)) {
            WORLD.take(line);
        }
        for (int number = 1; number <= WORLD.threads.size(); number++) {
            Shim.thread(Runner.class, number);
        }
        for (String end : ENDS) {
            Shim.say(end);
        }
        new Report(WORLD).say();
    }

    /** Makes the calls of a thread, up to the first that leaves an exception. */
    static void calls(int number) throws IllegalAccessException {
        String end = "ended";
        try {
            for (World.Call call : WORLD.threads.get(number - 1)) {
                call.method.invoke(null, call.arguments);
            }
        } catch (InvocationTargetException uncaught) {
            end = "uncaught " + World.nameOf(uncaught.getCause().getClass());
        }
        ENDS.add("T" + number + " " + end);
    }
}
