package jvm;

import java.io.ByteArrayOutputStream;
import java.io.DataOutputStream;
import java.io.IOException;
import java.io.UncheckedIOException;
import java.util.HashMap;
import java.util.Map;

/**
 * Writes a class file with methods and no fields. Its version is 49, whose verifier needs no stack maps, and
 * which JVMs from 5 on load.
 */
final class ClassFile {
    private static final int VERSION = 49;
    private static final int PUBLIC_SUPER = 0x21;
    private final Map<String, Integer> indices = new HashMap<>();
    private final ByteArrayOutputStream poolBytes = new ByteArrayOutputStream();
    private final DataOutputStream pool = new DataOutputStream(poolBytes);
    private final ByteArrayOutputStream methodBytes = new ByteArrayOutputStream();
    private final DataOutputStream methods = new DataOutputStream(methodBytes);
    private final int self;
    private final int parent;
    private int constants = 1;
    private int count;

    ClassFile(String name, String superName) {
        self = type(name);
        parent = type(superName);
    }

    /** Something that writes to a stream in memory, which never fails. */
    private interface Writing {
        void write() throws IOException;
    }

    private static void sure(Writing writing) {
        try {
            writing.write();
        } catch (IOException cause) {
            throw new UncheckedIOException(cause);
        }
    }

    private int constant(String key, Writing writing) {
        Integer known = indices.get(key);
        if (known != null) {
            return known;
        }
        sure(writing);
        indices.put(key, constants);
        return constants++;
    }

    private int utf8(String text) {
        return constant("utf8 " + text, () -> {
            pool.writeByte(1);
            pool.writeUTF(text);
        });
    }

    private int pair(int tag, int first, int second) {
        return constant(tag + " " + first + " " + second, () -> {
            pool.writeByte(tag);
            pool.writeShort(first);
            pool.writeShort(second);
        });
    }

    /** The constant of a class. */
    int type(String name) {
        int text = utf8(name);
        return constant("class " + text, () -> {
            pool.writeByte(7);
            pool.writeShort(text);
        });
    }

    /** The constant of a method of a class. */
    int method(String owner, String name, String descriptor) {
        return pair(10, type(owner), pair(12, utf8(name), utf8(descriptor)));
    }

    /**
     * Adds a method with one local variable. Where an instruction before `guarded` throws an object of the
     * class `thrown` (0 is none), it goes on at its handler.
     */
    void add(int flags, String name, String descriptor, int stack, byte[] code, int guarded, int handler, int thrown) {
        int attribute = utf8("Code");
        int handlers = thrown == 0 ? 0 : 1;
        int nameIndex = utf8(name);
        int descriptorIndex = utf8(descriptor);
        count++;
        sure(() -> {
            shorts(methods, flags, nameIndex, descriptorIndex, 1, attribute);
            methods.writeInt(12 + code.length + 8 * handlers);
            shorts(methods, stack, 1);
            methods.writeInt(code.length);
            methods.write(code);
            methods.writeShort(handlers);
            if (handlers == 1) {
                shorts(methods, 0, guarded, handler, thrown);
            }
            methods.writeShort(0);
        });
    }

    private static void shorts(DataOutputStream to, int... values) throws IOException {
        for (int value : values) {
            to.writeShort(value);
        }
    }

    byte[] bytes() {
        ByteArrayOutputStream bytes = new ByteArrayOutputStream();
        DataOutputStream out = new DataOutputStream(bytes);
        sure(() -> {
            out.writeInt(0xCAFEBABE);
            shorts(out, 0, VERSION, constants);
            poolBytes.writeTo(out);
            shorts(out, PUBLIC_SUPER, self, parent, 0, 0, count);
            methodBytes.writeTo(out);
            out.writeShort(0);
        });
        return bytes.toByteArray();
    }
}
