package jvm;

import java.io.ByteArrayOutputStream;
import java.util.ArrayList;
import java.util.List;

/** The code of a method, with labels that may be named before they stand. */
final class Bytecode {
    static final int SIPUSH = 0x11;
    static final int ALOAD_0 = 0x2a;
    static final int POP = 0x57;
    static final int DUP = 0x59;
    static final int IFEQ = 0x99;
    static final int RETURN = 0xb1;
    static final int INVOKEVIRTUAL = 0xb6;
    static final int INVOKESPECIAL = 0xb7;
    static final int MONITORENTER = 0xc2;
    static final int MONITOREXIT = 0xc3;
    static final int IFNONNULL = 0xc7;
    private static final int GOTO_W = 0xc8;
    private static final int CONDITION_LENGTH = 3;
    private static final int GOTO_W_LENGTH = 5;

    private final ByteArrayOutputStream code = new ByteArrayOutputStream();
    private final int[] places;
    private final List<int[]> jumps = new ArrayList<>();

    Bytecode(int labels) {
        places = new int[labels];
    }

    void op(int op) {
        code.write(op);
    }

    void op(int op, int operand) {
        code.write(op);
        code.write(operand >> 8);
        code.write(operand);
    }

    int length() {
        return code.size();
    }

    /** The label stands here. */
    void label(int label) {
        places[label] = code.size();
    }

    /** Goes to the label, however far it is. */
    void jump(int label) {
        jumps.add(new int[] {code.size(), label});
        code.write(GOTO_W);
        for (int index = 1; index < GOTO_W_LENGTH; index++) {
            code.write(0);
        }
    }

    /** Goes to the label unless the condition holds of the value on top of the stack. */
    void jumpUnless(int condition, int label) {
        op(condition, CONDITION_LENGTH + GOTO_W_LENGTH);
        jump(label);
    }

    byte[] bytes() {
        byte[] bytes = code.toByteArray();
        for (int[] jump : jumps) {
            int offset = places[jump[1]] - jump[0];
            for (int index = 1; index < GOTO_W_LENGTH; index++) {
                bytes[jump[0] + index] = (byte) (offset >> 8 * (GOTO_W_LENGTH - 1 - index));
            }
        }
        return bytes;
    }
}
