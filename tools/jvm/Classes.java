package jvm;

import java.util.List;

/**
 * Makes the classes of a program while it runs: one for each of its classes, since a JVM has its biases class
 * by class, and one for each thread, whose code has bare monitor instructions, which Java source can't have.
 */
final class Classes extends ClassLoader {
    private static final String CELL = "jvm/Cell";
    private static final String RUNNER = "jvm/Runner";
    private static final int PUBLIC = 1;
    private static final int PUBLIC_STATIC = 9;
    private static final int UNWIND = 0;

    Classes() {
        super(Classes.class.getClassLoader());
    }

    private Class<?> define(String name, ClassFile file) {
        byte[] bytes = file.bytes();
        return defineClass(name.replace('/', '.'), bytes, 0, bytes.length);
    }

    /** A class of objects of its own, for a class of the program. */
    Class<?> object(String name) {
        String full = "made/object/" + name;
        ClassFile file = new ClassFile(full, CELL);
        Bytecode code = new Bytecode(0);
        code.op(Bytecode.ALOAD_0);
        code.op(Bytecode.INVOKESPECIAL, file.method(CELL, "<init>", "()V"));
        code.op(Bytecode.RETURN);
        file.add(PUBLIC, "<init>", "()V", 1, code.bytes(), 0, 0, 0);
        return define(full, file);
    }

    /** A class whose method `run` does what the code of a thread says, by the help of its runner. */
    Class<?> thread(Program.Section section) {
        String full = "made/thread/" + section.name;
        ClassFile file = new ClassFile(full, "java/lang/Object");
        List<Program.Code> instructions = section.code;
        Bytecode code = new Bytecode(instructions.size() + 2);
        int done = instructions.size() + 1;
        for (int number = 1; number <= instructions.size(); number++) {
            code.label(number);
            instruction(file, code, instructions.get(number - 1), number);
        }
        int guarded = code.length();
        code.label(UNWIND);
        call(file, code, "unwinds", "()Ljava/lang/Object;");
        code.op(Bytecode.DUP);
        code.jumpUnless(Bytecode.IFNONNULL, done);
        code.op(Bytecode.MONITOREXIT);
        code.jump(UNWIND);
        code.label(done);
        code.op(Bytecode.POP);
        code.op(Bytecode.RETURN);
        int handler = code.length();
        code.op(Bytecode.POP);
        code.jump(UNWIND);
        int ended = file.type(RUNNER + "$Ended");
        file.add(PUBLIC_STATIC, "run", "(L" + RUNNER + ";)V", 2, code.bytes(), guarded, handler, ended);
        return define(full, file);
    }

    private static void instruction(ClassFile file, Bytecode code, Program.Code instruction, int number) {
        switch (instruction.op) {
            case ENTER:
                call(file, code, "asks", number, "Ljava/lang/Object;");
                code.op(Bytecode.MONITORENTER);
                call(file, code, "entered", "()V");
                break;
            case EXIT:
                call(file, code, "leaves", number, "Ljava/lang/Object;");
                code.op(Bytecode.MONITOREXIT);
                break;
            case JUMP:
            case JLT:
            case JEQ:
                call(file, code, "jumps", number, "Z");
                code.jumpUnless(Bytecode.IFEQ, instruction.operand(instruction.operands.length - 1));
                break;
            default:
                call(file, code, "does", number, "V");
        }
    }

    private static void call(ClassFile file, Bytecode code, String name, String descriptor) {
        code.op(Bytecode.ALOAD_0);
        code.op(Bytecode.INVOKEVIRTUAL, file.method(RUNNER, name, descriptor));
    }

    private static void call(ClassFile file, Bytecode code, String name, int number, String answer) {
        code.op(Bytecode.ALOAD_0);
        code.op(Bytecode.SIPUSH, number);
        code.op(Bytecode.INVOKEVIRTUAL, file.method(RUNNER, name, "(I)" + answer));
    }
}
