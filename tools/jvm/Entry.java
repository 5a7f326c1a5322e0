package jvm;

import java.util.Comparator;

/** What a thread did, with its stamp. */
final class Entry {
    static final Comparator<Entry> ORDER =
            Comparator.<Entry>comparingLong(entry -> entry.stamp).thenComparingInt(entry -> entry.thread);

    final long stamp;
    final String kind;
    private final int thread;
    private final Object[] parts;

    Entry(long stamp, int thread, String kind, Object... parts) {
        this.stamp = stamp;
        this.thread = thread;
        this.kind = kind;
        this.parts = parts;
    }

    /** The line of the journal. */
    String line(Program program) {
        StringBuilder line = new StringBuilder("@" + stamp + " " + name(program) + " " + kind);
        for (Object part : parts) {
            line.append(' ').append(word(part));
        }
        return line.toString();
    }

    /** The line of a print. */
    String printed(Program program) {
        return name(program) + ": " + word(parts[0]);
    }

    private String name(Program program) {
        return program.threads.get(thread).name;
    }

    private static String word(Object part) {
        return part == null ? "nil" : part instanceof Cell ? ((Cell) part).name : part.toString();
    }
}
