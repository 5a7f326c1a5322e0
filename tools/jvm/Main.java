package jvm;

import java.io.BufferedOutputStream;
import java.io.ByteArrayOutputStream;
import java.io.IOException;
import java.io.InputStream;
import java.io.PrintStream;
import java.lang.reflect.InvocationTargetException;
import java.lang.reflect.Method;
import java.nio.charset.StandardCharsets;
import java.util.ArrayList;
import java.util.Arrays;
import java.util.List;

/**
 * Runs a program of the object language on the monitors of this JVM: the text is read from standard input,
 * and what `biasrun run` writes goes to standard output. Arguments: the fuel, and `journal` and `biases`
 * where these are asked for.
 */
public final class Main {
    private static final int FAULTED = 1;
    private static final int REFUSED = 3;
    private static final int STUCK = 4;
    private static final int NO_ANSWER = 8;
    private static final int FIRST_WITHOUT_BIASES = 18;
    private static volatile boolean begun;

    private Main() {}

    public static void main(String[] words) throws Exception {
        Thread.setDefaultUncaughtExceptionHandler((thread, cause) -> halt(cause.toString(), NO_ANSWER));
        Program program = null;
        try {
            program = Reader.read(new String(input(), StandardCharsets.ISO_8859_1));
        } catch (Reader.Refused cause) {
            halt(cause.getMessage(), REFUSED);
        }
        List<String> asked = Arrays.asList(words);
        if (asked.contains("biases") && version() >= FIRST_WITHOUT_BIASES) {
            System.err.println("jvm: this JVM has no biased locking; it was removed in JDK " + FIRST_WITHOUT_BIASES);
        }
        List<Runner> runners = start(program, Integer.parseInt(words[0]));
        boolean stuck = Watch.untilEnd(runners);
        PrintStream out = new PrintStream(new BufferedOutputStream(System.out), false, "US-ASCII");
        write(out, program, runners, asked.contains("journal"));
        out.flush();
        Runtime.getRuntime().halt(stuck ? STUCK : status(runners));
    }

    /** The JVM's version: 8 calls itself 1.8, and the ones after it have one number. */
    private static int version() {
        return Integer.parseInt(System.getProperty("java.specification.version").replaceFirst("^1\\.", ""));
    }

    private static byte[] input() throws IOException {
        ByteArrayOutputStream text = new ByteArrayOutputStream();
        byte[] buffer = new byte[1 << 16];
        InputStream in = System.in;
        for (int read = in.read(buffer); read >= 0; read = in.read(buffer)) {
            text.write(buffer, 0, read);
        }
        return text.toByteArray();
    }

    /** Ends the process, where the JVM did what this program has no answer for. */
    static IllegalStateException noAnswer(String cause) {
        halt(cause, NO_ANSWER);
        return new IllegalStateException(cause);
    }

    private static void halt(String cause, int status) {
        System.err.println("jvm: " + cause);
        Runtime.getRuntime().halt(status);
    }

    /** Starts the threads, which begin together. */
    private static List<Runner> start(Program program, int fuel) throws NoSuchMethodException {
        Classes classes = new Classes();
        List<Runner> runners = new ArrayList<>();
        for (int number = 0; number < program.threads.size(); number++) {
            Runner runner = new Runner(program, number, fuel);
            Method code = classes.thread(runner.section).getMethod("run", Runner.class);
            runner.thread = new Thread(() -> run(code, runner), runner.section.name);
            runner.thread.setDaemon(true);
            runners.add(runner);
        }
        for (Runner runner : runners) {
            runner.thread.start();
        }
        begun = true;
        return runners;
    }

    private static void run(Method code, Runner runner) {
        try {
            while (!begun) {
                Thread.yield();
            }
            code.invoke(null, runner);
        } catch (InvocationTargetException cause) {
            throw noAnswer(runner.section.name + ": " + cause.getCause());
        } catch (ReflectiveOperationException | RuntimeException | Error cause) {
            throw noAnswer(runner.section.name + ": " + cause);
        }
    }

    private static void write(PrintStream out, Program program, List<Runner> runners, boolean journal) {
        List<Entry> entries = new ArrayList<>();
        for (Runner runner : runners) {
            entries.addAll(runner.log.subList(0, runner.made.get()));
        }
        entries.sort(Entry.ORDER);
        for (Entry entry : entries) {
            if (entry.kind.equals("print")) {
                out.print(entry.printed(program) + "\n");
            }
        }
        for (Runner runner : runners) {
            out.print("thread " + runner.section.name + " " + Watch.stand(runner) + "\n");
        }
        if (journal) {
            for (Entry entry : entries) {
                out.print(entry.line(program) + "\n");
            }
        }
    }

    private static int status(List<Runner> runners) {
        for (Runner runner : runners) {
            if (!runner.ending.equals("done")) {
                return FAULTED;
            }
        }
        return 0;
    }
}
