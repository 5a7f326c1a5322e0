package jvm;

import java.util.List;

/** Watches the threads, and tells whether they have ended or are stuck. */
final class Watch {
    private static final long LOOK_MILLIS = 5;
    /** How long all have to stand still where they have to. */
    private static final long STILL_MILLIS = 250;
    /** How long all have to stand still where one of them could go on: then the JVM has lost a wake-up. */
    private static final long LOST_MILLIS = 10_000;

    private Watch() {}

    /** Waits until all threads have ended (false), or none can go on (true). */
    static boolean untilEnd(List<Runner> runners) throws InterruptedException {
        long made = -1;
        long since = System.nanoTime();
        while (!haveEnded(runners)) {
            Thread.sleep(LOOK_MILLIS);
            long now = sum(runners);
            if (now != made || !standStill(runners)) {
                made = now;
                since = System.nanoTime();
            }
            long still = (System.nanoTime() - since) / 1_000_000;
            if (still >= LOST_MILLIS || still >= STILL_MILLIS && areStuck(runners)) {
                return true;
            }
        }
        return false;
    }

    /** How a thread stands: by its ending, or by what the JVM says of it. */
    static String stand(Runner runner) {
        if (runner.ending != null) {
            return runner.ending;
        }
        boolean waits = runner.thread.getState() == Thread.State.WAITING;
        return (waits ? "waiting on " : "blocked on ") + runner.asked.name;
    }

    private static boolean haveEnded(List<Runner> runners) {
        return runners.stream().allMatch(runner -> runner.ending != null);
    }

    private static long sum(List<Runner> runners) {
        return runners.stream().mapToLong(runner -> runner.made.get()).sum();
    }

    private static boolean standStill(List<Runner> runners) {
        return runners.stream().allMatch(runner -> {
            Thread.State state = runner.thread.getState();
            boolean still = state == Thread.State.BLOCKED || state == Thread.State.WAITING;
            return runner.ending != null || still && runner.asked != null;
        });
    }

    /**
     * By what was logged: each thread that hasn't ended waits and wasn't notified, or asks for what another
     * one has.
     */
    private static boolean areStuck(List<Runner> runners) {
        return runners.stream().allMatch(runner -> runner.ending != null || runner.waits || isKeptOut(runner, runners));
    }

    private static boolean isKeptOut(Runner runner, List<Runner> runners) {
        return runners.stream().anyMatch(other -> other != runner && other.holds[runner.asked.number] > 0);
    }
}
