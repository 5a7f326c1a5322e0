package jvm;

import java.util.Arrays;
import java.util.HashMap;
import java.util.List;
import java.util.Map;

/** Reads a program. The text is taken to be right: only what can't be read at all is refused. */
final class Reader {
    private final Program program = new Program();
    private final Classes classes = new Classes();
    private final Map<String, Integer> kinds = new HashMap<>();
    private final Map<String, Integer> declarations = new HashMap<>();
    private final Map<String, Integer> locals = new HashMap<>();
    private final Map<String, Integer> labels = new HashMap<>();
    private Program.Section section;

    /** The text has no program, or one that a JVM can't run. */
    static final class Refused extends Exception {
        private static final long serialVersionUID = 1;

        Refused(String cause) {
            super(cause);
        }
    }

    static Program read(String text) throws Refused {
        return new Reader().program(text.split("\n"));
    }

    private Program program(String[] lines) throws Refused {
        for (int at = 0; at < lines.length; at++) {
            String[] words = words(lines[at]);
            if (words.length == 0) {
                continue;
            }
            try {
                if (words[0].equals("thread")) {
                    open(words[1], Arrays.asList(lines).subList(at + 1, lines.length));
                } else if (section == null) {
                    declare(words);
                } else {
                    instruct(words);
                }
            } catch (RuntimeException | ReflectiveOperationException cause) {
                throw new Refused("line " + (at + 1) + " can't be read: " + lines[at]);
            }
        }
        return program;
    }

    private static String[] words(String line) {
        String bare = line.replaceFirst("#.*", "").trim();
        return bare.isEmpty() ? new String[0] : bare.split("[ \t]+");
    }

    private void declare(String[] words) throws ReflectiveOperationException {
        if (words[0].equals("class")) {
            kinds.put(words[1], program.kinds.size());
            program.kinds.add(new Program.Kind(words[1], Integer.parseInt(words[2]), classes.object(words[1])));
            return;
        }
        boolean array = words[0].equals("array");
        if (!array && !words[0].equals("object")) {
            throw new IllegalArgumentException(words[0]);
        }
        int size = array ? Integer.parseInt(words[3]) : 1;
        declarations.put(words[1], program.declarations.size());
        program.declarations.add(new Program.Declared(program.objects.size(), size));
        Program.Kind kind = program.kinds.get(kinds.get(words[2]));
        for (int element = 0; element < size; element++) {
            Cell cell = kind.make();
            String name = array ? words[1] + "[" + element + "]" : words[1];
            cell.open(name, program.objects.size(), kind.slots);
            program.objects.add(cell);
        }
    }

    /** Opens a section, and finds its labels in the lines after it. */
    private void open(String name, List<String> lines) {
        section = new Program.Section(name);
        program.threads.add(section);
        locals.clear();
        labels.clear();
        int next = 1;
        for (String line : lines) {
            String[] words = words(line);
            if (words.length == 0 || words[0].equals("local")) {
                continue;
            }
            if (words[0].equals("end")) {
                return;
            }
            if (words[0].equals("label")) {
                labels.put(words[1], next);
            } else {
                next++;
            }
        }
    }

    private void instruct(String[] words) throws Refused {
        if (words[0].equals("local")) {
            locals.put(words[1], section.locals++);
            return;
        }
        if (words[0].equals("label")) {
            return;
        }
        Op op = Op.valueOf(words[0].toUpperCase(java.util.Locale.ROOT));
        if (op == Op.DUMP) {
            throw new Refused("the program has a dump, and a JVM has none");
        }
        long[] operands = new long[op.operands.length()];
        for (int index = 0; index < operands.length; index++) {
            operands[index] = operand(op.operands.charAt(index), words[index + 1]);
        }
        section.code.add(new Program.Code(op, operands));
        if (op == Op.NEW) {
            program.madeSlots = Math.max(program.madeSlots, program.kinds.get((int) operands[1]).slots);
        }
        if (op == Op.END) {
            section = null;
        }
    }

    private long operand(char kind, String word) {
        switch (kind) {
            case 'x':
                return locals.get(word);
            case 'c':
                return kinds.get(word);
            case 'n':
                return declarations.get(word);
            case 'l':
                return labels.get(word);
            default:
                return Long.parseLong(word);
        }
    }
}
