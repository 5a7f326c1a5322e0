package jvm;

/**
 * The instructions of the object language, each with its operands: x is a local, v a number, n a declaration
 * of objects, c a class, k a slot and l a label.
 */
enum Op {
    SET("xv"),
    ADD("xxx"),
    SUB("xxx"),
    MUL("xxx"),
    REF("xn"),
    ELEM("xnx"),
    ENTER("x"),
    EXIT("x"),
    WAIT("x"),
    NOTIFY("x"),
    NOTIFYALL("x"),
    GET("xxk"),
    PUT("xkx"),
    HASH("xx"),
    NEW("xc"),
    PRINT("x"),
    JUMP("l"),
    JLT("xxl"),
    JEQ("xxl"),
    DUMP(""),
    END("");

    final String operands;

    Op(String operands) {
        this.operands = operands;
    }
}
