package karzhoul.jpa.query;

import java.util.List;
import java.util.Locale;
import java.util.Set;

/** The tokens of a text as they are read from the first to the last. */
final class Tokens {
    /** Reserved identifiers that can't be an identification variable without another meaning (chapter 4.4.1). */
    private static final Set<String> RESERVED = Set.of("ALL", "AND", "ANY", "AS", "ASC", "AVG", "BETWEEN", "BOTH", "BY",
            "CASE", "COUNT", "CURRENT_DATE", "CURRENT_TIME", "CURRENT_TIMESTAMP", "DELETE", "DESC", "DISTINCT", "ELSE",
            "EMPTY", "END", "ESCAPE", "EXISTS", "FALSE", "FETCH", "FROM", "GROUP", "HAVING", "IN", "INNER", "IS",
                    "JOIN",
            "LEFT", "LIKE", "MAX", "MEMBER", "MIN", "NEW", "NOT", "NULL", "OF", "ON", "OR", "ORDER", "OUTER", "SELECT",
            "SET", "SOME", "SUM", "THEN", "TRUE", "UPDATE", "WHEN", "WHERE");

    final String text;
    private final List<Token> all;
    private int place;

    Tokens(String text) {
        this.text = text;
        this.all = Lexer.tokens(text);
    }

    Token peek() {
        return all.get(place);
    }

    Token peek(int ahead) {
        return all.get(Math.min(place + ahead, all.size() - 1));
    }

    Token next() {
        Token token = all.get(place);
        if (place < all.size() - 1) {
            place++;
        }
        return token;
    }

    boolean sees(String word) {
        return peek().isWord(word);
    }

    boolean seesMark(String mark) {
        return peek().isMark(mark);
    }

    /** Whether the next word is a name that is followed by a parenthesis. */
    boolean seesCall(String word) {
        return sees(word) && peek(1).isMark("(");
    }

    boolean accept(String word) {
        if (sees(word)) {
            next();
            return true;
        }
        return false;
    }

    boolean acceptMark(String mark) {
        if (seesMark(mark)) {
            next();
            return true;
        }
        return false;
    }

    void expect(String word) {
        if (!accept(word)) {
            throw expected(word);
        }
    }

    void expectMark(String mark) {
        if (!acceptMark(mark)) {
            throw expected("\"" + mark + "\"");
        }
    }

    /** A name of any word, as an entity's or one behind a dot. */
    String name(String what) {
        if (peek().kind() != Token.Kind.WORD) {
            throw expected(what);
        }
        return next().text();
    }

    boolean seesVariable() {
        return peek().kind() == Token.Kind.WORD && !isReserved(peek().text());
    }

    /** A name that is no reserved word. */
    String variable(String what) {
        if (!seesVariable()) {
            if (peek().kind() == Token.Kind.WORD) {
                throw fault(peek().at(), "expected " + what + ", but " + peek().told() + " is a reserved word");
            }
            throw expected(what);
        }
        return next().text();
    }

    static boolean isReserved(String word) {
        return RESERVED.contains(word.toUpperCase(Locale.ROOT));
    }

    QueryFault expected(String what) {
        return fault(peek().at(), "expected " + what + ", found " + peek().told());
    }

    QueryFault fault(int at, String reason) {
        return QueryFault.at(text, at, reason);
    }
}
