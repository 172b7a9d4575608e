package karzhoul.jpa.query;

/**
 * A token of a query.
 *
 * @param at where it begins in the text
 * @param text how it is written; of a mark, the mark itself
 * @param value what a literal is, or the name or number of a parameter; else null
 */
record Token(Kind kind, int at, String text, Object value) {
    /** The sorts of tokens. */
    enum Kind { WORD, NUMBER, STRING, TEMPORAL, PARAMETER, MARK, END }

    boolean isWord(String word) {
        return kind == Kind.WORD && text.equalsIgnoreCase(word);
    }

    boolean isMark(String mark) {
        return kind == Kind.MARK && text.equals(mark);
    }

    /** The token as a fault names it. */
    String told() {
        return kind == Kind.END ? "the end" : "\"" + text + "\"";
    }
}
