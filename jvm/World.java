package jnirun;

import java.lang.reflect.Array;
import java.lang.reflect.Field;
import java.lang.reflect.Method;
import java.util.ArrayList;
import java.util.Collections;
import java.util.HashMap;
import java.util.List;
import java.util.Map;

/** A world (docs/WORLDS.md), read line by line. Its classes are there already; in a call, a class and a method stand for the function. */
final class World {
    /** A call of a native method. */
    static final class Call {
        final Method method;
        final Object[] arguments;

        Call(Method method, Object[] arguments) {
            this.method = method;
            this.arguments = arguments;
        }
    }

    /** The objects, the static fields, the classes that the program asks for and a world doesn't have, and the calls of each thread, in their order. */
    final List<Object> objects = new ArrayList<>();
    final List<Field> statics = new ArrayList<>();
    final List<String> asked = new ArrayList<>();
    final List<List<Call>> threads = new ArrayList<>();

    /** The number of the first object. */
    int first;

    private final Map<String, Object> named = new HashMap<>();
    private final Map<Class<?>, List<Field>> fields = new HashMap<>();

    void take(String line) throws ReflectiveOperationException {
        String[] words = line.split(" ");
        switch (words[0]) {
            case "first":
                first = Integer.parseInt(words[1]);
                break;
            case "class":
                fields.put(classOf(words[1]), new ArrayList<>());
                break;
            case "field":
                fields.get(classOf(words[1])).add(classOf(words[1]).getDeclaredField(words[2]));
                break;
            case "static":
                statics.add(classOf(words[1]).getDeclaredField(words[2]));
                break;
            case "object":
                name(words[1], object(classOf(words[2]), words));
                break;
            case "objects":
                name(words[1], array(classOf(words[2]), words));
                break;
            case "array":
                name(words[1], array(numberOf(words[2]), words));
                break;
            case "string":
                // an empty one may have no blank before it
                int head = words[0].length() + words[1].length() + 2;
                name(words[1], new String(line.substring(Math.min(head, line.length()))));
                break;
            case "asks":
                asked.add(words[1]);
                break;
            case "thread":
                threads.add(new ArrayList<>());
                threads.get(threads.size() - 1).add(call(words));
                break;
            case "call":
                threads.get(threads.size() - 1).add(call(words));
                break;
            default:
                break;
        }
    }

    /** The fields of an object of a class, those of its superclass first. */
    List<Field> layout(Class<?> of) {
        if (of == null) {
            return new ArrayList<>();
        }
        List<Field> found = layout(of.getSuperclass());
        found.addAll(fields.getOrDefault(of, Collections.emptyList()));
        return found;
    }

    /** A class's name as the JNI has it. */
    static String nameOf(Class<?> it) {
        return it.getName().replace('.', '/');
    }

    static Class<?> classOf(String name) throws ClassNotFoundException {
        return Class.forName(name.replace('/', '.'), false, World.class.getClassLoader());
    }

    private static Class<?> numberOf(String signature) {
        switch (signature) {
            case "I":
                return int.class;
            case "S":
                return short.class;
            case "B":
                return byte.class;
            default:
                return char.class;
        }
    }

    private void name(String name, Object it) {
        named.put(name, it);
        objects.add(it);
    }

    /** The value that a word stands for, in a place of this type. */
    private Object value(Class<?> type, String word) throws ClassNotFoundException {
        if (!type.isPrimitive()) {
            return word.startsWith("class:") ? classOf(word.substring("class:".length())) : named.get(word);
        }
        int number = Integer.parseInt(word);
        if (type == char.class) {
            return (char) number;
        }
        if (type == short.class) {
            return (short) number;
        }
        if (type == byte.class) {
            return (byte) number;
        }
        return number;
    }

    private Object object(Class<?> of, String[] words) throws ReflectiveOperationException {
        Object made = Shim.allocate(of);
        int at = 3;
        if (made instanceof Throwable) {
            Shim.initialise((Throwable) made, (String) value(String.class, words[at++]));
        }
        for (Field field : layout(of)) {
            field.set(made, value(field.getType(), words[at++]));
        }
        return made;
    }

    private Object array(Class<?> of, String[] words) throws ClassNotFoundException {
        Object made = Array.newInstance(of, words.length - 3);
        for (int at = 3; at < words.length; at++) {
            Array.set(made, at - 3, value(of, words[at]));
        }
        return made;
    }

    private Call call(String[] words) throws ClassNotFoundException {
        for (Method method : classOf(words[1]).getDeclaredMethods()) {
            if (method.getName().equals(words[2])) {
                Object[] arguments = new Object[words.length - 3];
                for (int at = 3; at < words.length; at++) {
                    arguments[at - 3] = value(method.getParameterTypes()[at - 3], words[at]);
                }
                return new Call(method, arguments);
            }
        }
        throw new IllegalArgumentException(words[1] + " has no method " + words[2]);
    }
}
