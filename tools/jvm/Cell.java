package jvm;

import java.util.ArrayList;
import java.util.Arrays;
import java.util.List;
import java.util.concurrent.atomic.AtomicBoolean;

/**
 * An object of the program: its monitor is that of this Java object. All fields but the name, the number and
 * whether its hash was drawn are plain, and are read and written by the monitor's owner alone.
 */
public class Cell {
    String name;
    int number;
    Object[] slots;
    /** The stamp with which the monitor was let go of last. */
    long stamp;
    /** The threads that wait and weren't notified, longest first. */
    final List<Runner> waiters = new ArrayList<>();
    final AtomicBoolean drawn = new AtomicBoolean();

    final void open(String itsName, int itsNumber, int slotCount) {
        name = itsName;
        number = itsNumber;
        slots = new Object[slotCount];
        Arrays.fill(slots, 0L);
    }
}
