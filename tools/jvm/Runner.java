package jvm;

import java.util.ArrayList;
import java.util.List;
import java.util.Objects;
import java.util.concurrent.atomic.AtomicInteger;

/**
 * A thread of the program. The made code of the thread has the instructions that enter and exit monitors, and
 * calls this for all else. How often a thread holds what is kept here; `Thread.holdsLock` has to agree.
 */
public final class Runner {
    private static final int MOST_HOLDS = 64;
    private static final long LEAST = -(1L << 61);
    private static final long GREATEST = (1L << 61) - 1;
    private static final Ended ENDED = new Ended();

    final Program.Section section;
    final List<Entry> log = new ArrayList<>();
    /** How many entries were logged. Who reads it may read the log up to there, and the holds. */
    final AtomicInteger made = new AtomicInteger();
    /** How often this thread holds each object. */
    final int[] holds;
    /** Whether this thread waits and wasn't notified. Who has the monitor that it waits on writes this. */
    volatile boolean waits;
    /** The object that it asks for, or waits on. */
    volatile Cell asked;
    /** How it ended. */
    volatile String ending;
    Thread thread;

    private final Program program;
    private final int number;
    private final Object[] locals;
    /** The objects that this thread has entered, by their numbers. */
    private final Cell[] entered;
    private int objectsMade;
    private int fuel;
    private int depth;
    private int draws;
    private long last;
    private String leaving;

    /** The thread ends, once it has left what it holds. */
    public static final class Ended extends RuntimeException {
        private static final long serialVersionUID = 1;

        Ended() {
            super(null, null, false, false);
        }
    }

    Runner(Program program, int number, int fuel) {
        this.program = program;
        this.number = number;
        this.fuel = fuel;
        section = program.threads.get(number);
        locals = new Object[section.locals];
        holds = new int[program.total()];
        entered = new Cell[program.total()];
    }

    // What is logged

    private long log(long stamp, String kind, Object... parts) {
        last = stamp;
        log.add(new Entry(stamp, number, kind, parts));
        made.lazySet(log.size());
        return stamp;
    }

    private long log(String kind, Object... parts) {
        return log(last + 1, kind, parts);
    }

    /** After the entry with which the monitor was let go of last. */
    private long after(Cell cell) {
        return Math.max(last, cell.stamp) + 1;
    }

    // What instructions ask

    private Program.Code pay(int at) {
        if (fuel == 0) {
            throw ends("spent");
        }
        fuel--;
        return section.code.get(at - 1);
    }

    private Ended ends(String how) {
        leaving = how;
        return ENDED;
    }

    private Ended faults(String fault, int at) {
        return ends("fault " + fault + " at " + at);
    }

    private Cell reference(Object value, int at) {
        if (!(value instanceof Cell)) {
            throw faults("NotRef", at);
        }
        return (Cell) value;
    }

    private long whole(Object value, int at) {
        if (!(value instanceof Long)) {
            throw faults("NotInt", at);
        }
        return (Long) value;
    }

    private void owner(Cell cell, String fault, int at) {
        boolean owns = holds[cell.number] > 0;
        if (owns != Thread.holdsLock(cell)) {
            throw Main.noAnswer("the JVM says that " + section.name + (owns ? " hasn't " : " has ") + cell.name);
        }
        if (!owns) {
            throw faults(fault, at);
        }
    }

    // What the made code calls

    /** The object that an enter asks for. */
    public Object asks(int at) {
        Program.Code code = pay(at);
        Cell cell = reference(locals[code.operand(0)], at);
        if (depth == MOST_HOLDS) {
            throw faults("TooDeep", at);
        }
        asked = cell;
        return cell;
    }

    /** The monitor is entered. */
    public void entered() {
        Cell cell = asked;
        boolean again = holds[cell.number]++ > 0;
        entered[cell.number] = cell;
        depth++;
        log(after(cell), "enter", cell, again ? "monitor-again" : "monitor-first");
    }

    /** The object whose monitor is to be left, which is logged as long as the thread has it. */
    public Object leaves(int at) {
        Cell cell = reference(locals[pay(at).operand(0)], at);
        owner(cell, "IllegalMonitorState", at);
        return leaves(cell);
    }

    private Cell leaves(Cell cell) {
        depth--;
        holds[cell.number]--;
        long stamp = log("exit", cell);
        if (holds[cell.number] == 0) {
            cell.stamp = stamp;
        }
        return cell;
    }

    /** The next object to be left at the end, or null once all are left and the end is logged. */
    public Object unwinds() {
        for (int object = 0; depth > 0; object++) {
            if (holds[object] > 0) {
                return leaves(entered[object]);
            }
        }
        log(leaving);
        ending = leaving;
        return null;
    }

    /** Whether a jump is made. */
    public boolean jumps(int at) {
        Program.Code code = pay(at);
        if (code.op == Op.JUMP) {
            return true;
        }
        Object left = locals[code.operand(0)];
        Object right = locals[code.operand(1)];
        return code.op == Op.JEQ ? Objects.equals(left, right) : whole(left, at) < whole(right, at);
    }

    /** Any other instruction. */
    public void does(int at) {
        Program.Code code = pay(at);
        switch (code.op) {
            case SET:
                locals[code.operand(0)] = code.operands[1];
                break;
            case ADD:
            case SUB:
            case MUL:
                locals[code.operand(0)] = computes(code, at);
                break;
            case REF:
                locals[code.operand(0)] = program.objects.get(program.declarations.get(code.operand(1)).first);
                break;
            case ELEM:
                locals[code.operand(0)] = element(code, at);
                break;
            case NEW:
                locals[code.operand(0)] = makes(program.kinds.get(code.operand(1)), at);
                break;
            case PRINT:
                log("print", locals[code.operand(0)]);
                break;
            case END:
                throw ends("done");
            default:
                calls(code, at);
        }
    }

    private Long computes(Program.Code code, int at) {
        Object left = locals[code.operand(1)];
        Object right = locals[code.operand(2)];
        whole(left, at);
        try {
            long result = combined(code.op, (Long) left, whole(right, at));
            if (result >= LEAST && result <= GREATEST) {
                return result;
            }
        } catch (ArithmeticException passed) {
            // the result isn't in the range of a long
        }
        throw faults("Overflow", at);
    }

    private static long combined(Op op, long left, long right) {
        if (op == Op.MUL) {
            return Math.multiplyExact(left, right);
        }
        return op == Op.ADD ? Math.addExact(left, right) : Math.subtractExact(left, right);
    }

    private Cell element(Program.Code code, int at) {
        Program.Declared declared = program.declarations.get(code.operand(1));
        long element = whole(locals[code.operand(2)], at);
        if (element < 0 || element >= declared.size) {
            throw faults("Range", at);
        }
        return program.objects.get(declared.first + (int) element);
    }

    private Cell makes(Program.Kind kind, int at) {
        if (objectsMade == Program.MOST_MADE) {
            throw faults("TooMany", at);
        }
        try {
            Cell cell = kind.make();
            int its = program.objects.size() + Program.MOST_MADE * number + objectsMade;
            cell.open(section.name + "." + objectsMade, its, program.madeSlots);
            objectsMade++;
            log("new", cell, kind.name);
            return cell;
        } catch (ReflectiveOperationException cause) {
            throw Main.noAnswer(section.name + " can't make an object: " + cause);
        }
    }

    // Instructions on an object

    private void calls(Program.Code code, int at) {
        switch (code.op) {
            case GET:
                gets(code, at);
                break;
            case PUT:
                puts(code, at);
                break;
            case HASH:
                hashes(code, at);
                break;
            default:
                Cell cell = reference(locals[code.operand(0)], at);
                owner(cell, "IllegalMonitorState", at);
                monitors(code.op, cell);
        }
    }

    private Cell guarded(Object value, int slot, int at) {
        Cell cell = reference(value, at);
        if (slot >= cell.slots.length) {
            throw faults("Range", at);
        }
        owner(cell, "Unguarded", at);
        return cell;
    }

    private void gets(Program.Code code, int at) {
        int slot = code.operand(2);
        Cell cell = guarded(locals[code.operand(1)], slot, at);
        Object value = cell.slots[slot];
        log("get", cell, slot, value);
        locals[code.operand(0)] = value;
    }

    private void puts(Program.Code code, int at) {
        int slot = code.operand(1);
        Cell cell = guarded(locals[code.operand(0)], slot, at);
        Object value = locals[code.operand(2)];
        cell.slots[slot] = value;
        log("put", cell, slot, value);
    }

    private void hashes(Program.Code code, int at) {
        Cell cell = reference(locals[code.operand(1)], at);
        long hash = System.identityHashCode(cell);
        if (cell.drawn.compareAndSet(false, true)) {
            log("hash", cell, hash, "draw", ++draws);
        } else {
            log("hash", cell, hash);
        }
        locals[code.operand(0)] = hash;
    }

    private void monitors(Op op, Cell cell) {
        switch (op) {
            case WAIT:
                waits(cell);
                break;
            case NOTIFY:
                notifies(cell);
                break;
            default:
                notifiesAll(cell);
        }
    }

    /** Waits until it is notified; a wake-up without a notify leads to one more wait. */
    private void waits(Cell cell) {
        int count = holds[cell.number];
        cell.waiters.add(this);
        waits = true;
        asked = cell;
        holds[cell.number] = 0;
        cell.stamp = log("wait", cell);
        while (waits) {
            try {
                cell.wait();
            } catch (InterruptedException cause) {
                throw Main.noAnswer(section.name + " is interrupted");
            }
        }
        holds[cell.number] = count;
        log(after(cell), "resume", cell);
    }

    /**
     * Notifies, and asks each thread that waits for its state: the JVM shows who was woken as blocked, since
     * that thread asks for the monitor from now on.
     */
    private void notifies(Cell cell) {
        List<Runner> woken = new ArrayList<>();
        for (Runner waiter : cell.waiters) {
            if (waiter.thread.getState() != Thread.State.WAITING) {
                throw Main.noAnswer(waiter.section.name + " woke by itself, and it can't be told whom a notify wakes");
            }
        }
        cell.notify();
        for (Runner waiter : cell.waiters) {
            if (waiter.thread.getState() != Thread.State.WAITING) {
                woken.add(waiter);
            }
        }
        if (woken.size() != Math.min(1, cell.waiters.size())) {
            throw Main.noAnswer("a notify woke " + woken.size() + " of " + cell.waiters.size() + " threads");
        }
        log("notify", cell, woken.isEmpty() ? "none" : woken.get(0).section.name);
        leaveWaiters(cell, woken);
    }

    private void notifiesAll(Cell cell) {
        cell.notifyAll();
        log("notifyall", cell, cell.waiters.size());
        leaveWaiters(cell, new ArrayList<>(cell.waiters));
    }

    private static void leaveWaiters(Cell cell, List<Runner> woken) {
        cell.waiters.removeAll(woken);
        for (Runner waiter : woken) {
            waiter.waits = false;
        }
    }
}
