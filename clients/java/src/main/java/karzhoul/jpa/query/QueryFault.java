package karzhoul.jpa.query;

/**
 * A text that is no query of the language (chapter 4), or one that can't be answered as the standard says. The message
 * begins with the line and the column, both counted from 1; {@link #reason()} is the rest of it.
 */
public final class QueryFault extends IllegalArgumentException {
    private static final long serialVersionUID = 1L;

    private final int line;
    private final int column;
    private final String reason;
    private final boolean isRefusal;

    private QueryFault(int line, int column, String reason, boolean isRefusal) {
        super("line " + line + ", column " + column + ": " + reason);
        this.line = line;
        this.column = column;
        this.reason = reason;
        this.isRefusal = isRefusal;
    }

    /** A fault at an offset of a text. */
    static QueryFault at(String text, int offset, String reason) {
        return at(text, offset, reason, false);
    }

    /** What is right by the standard, and isn't served. */
    static QueryFault refusal(String text, int offset, String reason) {
        return at(text, offset, reason, true);
    }

    private static QueryFault at(String text, int offset, String reason, boolean isRefusal) {
        int line = 1;
        int start = 0;
        for (int i = 0; i < offset && i < text.length(); i++) {
            if (text.charAt(i) == '\n') {
                line++;
                start = i + 1;
            }
        }
        return new QueryFault(line, offset - start + 1, reason, isRefusal);
    }

    /** The line, from 1. */
    public int line() {
        return line;
    }

    /** The column in UTF-16 units, from 1. */
    public int column() {
        return column;
    }

    /** What is wrong, and what was expected or would do. */
    public String reason() {
        return reason;
    }

    /** Whether the text is right by the standard, and isn't served. */
    public boolean isRefusal() {
        return isRefusal;
    }
}
