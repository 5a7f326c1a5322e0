package jvm;

import java.util.ArrayList;
import java.util.List;

/** A program as data: its classes, its objects, its declarations of objects, and its threads. */
final class Program {
    static final int MOST_MADE = 1024;

    final List<Kind> kinds = new ArrayList<>();
    /** Declared objects by their numbers. */
    final List<Cell> objects = new ArrayList<>();
    final List<Declared> declarations = new ArrayList<>();
    final List<Section> threads = new ArrayList<>();
    /** How many slots an object has that a thread makes: as many as the largest class that a `new` names. */
    int madeSlots;

    /** How many numbers of objects there are: of the declared ones, and of those that threads may make. */
    int total() {
        return objects.size() + MOST_MADE * threads.size();
    }

    /** A class of the program. */
    static final class Kind {
        final String name;
        final int slots;
        private final Class<?> made;

        Kind(String name, int slots, Class<?> made) {
            this.name = name;
            this.slots = slots;
            this.made = made;
        }

        Cell make() throws ReflectiveOperationException {
            return (Cell) made.getConstructor().newInstance();
        }
    }

    /** An object or an array: the objects first to first + size - 1. */
    static final class Declared {
        final int first;
        final int size;

        Declared(int first, int size) {
            this.first = first;
            this.size = size;
        }
    }

    /** A thread: how many locals it has, and its instructions. */
    static final class Section {
        final String name;
        final List<Code> code = new ArrayList<>();
        int locals;

        Section(String name) {
            this.name = name;
        }
    }

    /** An instruction with its operands. A label is the number of the instruction that it names, from 1. */
    static final class Code {
        final Op op;
        final long[] operands;

        Code(Op op, long[] operands) {
            this.op = op;
            this.operands = operands;
        }

        int operand(int index) {
            return (int) operands[index];
        }
    }
}
