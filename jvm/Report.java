package jnirun;

import java.lang.reflect.Array;
import java.lang.reflect.Field;
import java.util.ArrayList;
import java.util.IdentityHashMap;
import java.util.List;
import java.util.Map;

/**
 * The objects that can be reached, by rising numbers. First come the world's in their order; then those of static fields, in the order of the world's lines;
 * then those that global references keep, in the order in which they came to be kept; and then what the rows of all these refer to, as they are met in turn.
 */
final class Report {
    private final World world;
    private final List<Object> found = new ArrayList<>();
    private final Map<Object, Integer> numbers = new IdentityHashMap<>();

    Report(World world) throws IllegalAccessException {
        this.world = world;
        for (Object it : world.objects) {
            shown(it);
        }
        for (Field field : world.statics) {
            shown(field.get(null));
        }
        for (int at = 0; at < Shim.globals(); at++) {
            shown(Shim.global(at));
        }
    }

    void say() throws IllegalAccessException {
        for (int at = 0; at < found.size(); at++) {
            Shim.say(row(found.get(at)));
        }
        for (String name : world.asked) {
            if (isThere(name)) {
                Shim.say("? class " + name);
            }
        }
    }

    private static boolean isThere(String name) {
        try {
            World.classOf(name);
            return true;
        } catch (ClassNotFoundException | LinkageError missing) {
            return false;
        }
    }

    /** A value as a row has it; an object gets a number where it has none. */
    private String shown(Object value) {
        if (value == null) {
            return "null";
        }
        if (value instanceof Class) {
            return "class:" + World.nameOf((Class<?>) value);
        }
        if (value instanceof Number) {
            return value.toString();
        }
        if (value instanceof Character) {
            return Integer.toString((Character) value);
        }
        Integer number = numbers.get(value);
        if (number == null) {
            number = world.first + found.size();
            numbers.put(value, number);
            found.add(value);
        }
        return "#" + number;
    }

    private String row(Object it) throws IllegalAccessException {
        StringBuilder row = new StringBuilder(shown(it)).append(' ').append(World.nameOf(it.getClass()));
        if (it instanceof String) {
            for (char unit : ((String) it).toCharArray()) {
                row.append(' ').append((int) unit);
            }
        } else if (it.getClass().isArray()) {
            for (int at = 0; at < Array.getLength(it); at++) {
                row.append(' ').append(shown(Array.get(it, at)));
            }
        }
        if (it instanceof Throwable) {
            row.append(' ').append(shown(((Throwable) it).getMessage()));
        }
        for (Field field : world.layout(it.getClass())) {
            row.append(' ').append(shown(field.get(it)));
        }
        return row.toString();
    }
}
