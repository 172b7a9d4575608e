package karzhoul.jpa.query;

import java.math.BigDecimal;
import java.math.BigInteger;
import java.time.LocalDate;
import java.time.LocalDateTime;
import java.time.LocalTime;
import java.time.format.DateTimeParseException;
import java.util.ArrayList;
import java.util.List;
import java.util.Locale;

/** Reads the tokens of a query (chapters 4.4.1, 4.6.1 and 4.6.4). */
final class Lexer {
    private static final List<String> MARKS = List.of(
            "<>", "!=", "<=", ">=", "<", ">", "=", "+", "-", "*", "/", "(", ")", ",", ".");

    private final String text;
    private int at;

    private Lexer(String text) {
        this.text = text;
    }

    /** The tokens of a text, the last of them its end. */
    static List<Token> tokens(String text) {
        return new Lexer(text).all();
    }

    private List<Token> all() {
        List<Token> found = new ArrayList<>();
        skipBlanks();
        while (at < text.length()) {
            found.add(next());
            skipBlanks();
        }
        found.add(new Token(Token.Kind.END, at, "", null));
        return found;
    }

    private void skipBlanks() {
        while (at < text.length() && Character.isWhitespace(text.charAt(at))) {
            at++;
        }
    }

    private Token next() {
        char c = text.charAt(at);
        if (Character.isJavaIdentifierStart(c)) {
            return word();
        }
        if (isDigit(at) || c == '.' && isDigit(at + 1)) {
            return number();
        }
        return switch (c) {
            case '\'' -> string();
            case ':', '?' -> parameter();
            case '{' -> temporal();
            default -> mark();
        };
    }

    private boolean isDigit(int place) {
        return place < text.length() && text.charAt(place) >= '0' && text.charAt(place) <= '9';
    }

    private int identifierEnd(int from) {
        int end = from;
        while (end < text.length() && Character.isJavaIdentifierPart(text.charAt(end))) {
            end++;
        }
        return end;
    }

    private Token word() {
        int start = at;
        at = identifierEnd(at);
        return new Token(Token.Kind.WORD, start, text.substring(start, at), null);
    }

    private Token mark() {
        for (String mark : MARKS) {
            if (text.startsWith(mark, at)) {
                int start = at;
                at += mark.length();
                return new Token(Token.Kind.MARK, start, mark.equals("!=") ? "<>" : mark, null);
            }
        }
        if (text.startsWith("||", at)) {
            throw fault(at, "\"||\" is no mark of Jakarta Persistence 3.1; write CONCAT(a, b)");
        }
        throw fault(at, "\"" + Character.toString(text.codePointAt(at)) + "\" is no character of a query");
    }

    private Token string() {
        int start = at++;
        StringBuilder value = new StringBuilder();
        while (at < text.length()) {
            char c = text.charAt(at++);
            if (c != '\'') {
                value.append(c);
            } else if (at < text.length() && text.charAt(at) == '\'') {
                value.append('\'');
                at++;
            } else {
                return new Token(Token.Kind.STRING, start, text.substring(start, at), value.toString());
            }
        }
        throw fault(start, "the text that begins here has no closing quote");
    }

    private Token parameter() {
        int start = at++;
        int end = identifierEnd(at);
        String name = text.substring(at, end);
        at = end;
        if (text.charAt(start) == ':') {
            if (name.isEmpty() || !Character.isJavaIdentifierStart(name.charAt(0))) {
                throw fault(start, "expected the name of a parameter after \":\"");
            }
            return new Token(Token.Kind.PARAMETER, start, ":" + name, name);
        }
        if (!name.matches("[1-9][0-9]{0,8}")) {
            throw fault(start, "expected the number of a parameter, from 1, after \"?\"");
        }
        return new Token(Token.Kind.PARAMETER, start, "?" + name, Integer.valueOf(name));
    }

    private Token number() {
        int start = at;
        if (text.startsWith("0x", at) || text.startsWith("0X", at)) {
            at = identifierEnd(at);
        } else {
            digits();
            if (at < text.length() && text.charAt(at) == '.') {
                at++;
                digits();
            }
            exponent();
            at = identifierEnd(at);
        }
        String written = text.substring(start, at);
        try {
            return new Token(Token.Kind.NUMBER, start, written, numeric(written.toLowerCase(Locale.ROOT)));
        } catch (NumberFormatException e) {
            throw fault(start, "\"" + written + "\" is no number, or too great for its type");
        }
    }

    private void digits() {
        while (isDigit(at)) {
            at++;
        }
    }

    private void exponent() {
        if (at < text.length() && (text.charAt(at) == 'e' || text.charAt(at) == 'E')) {
            at++;
            if (at < text.length() && (text.charAt(at) == '+' || text.charAt(at) == '-')) {
                at++;
            }
            digits();
        }
    }

    /** A literal of Java's or of SQL's syntax: an Integer, Long, Float, Double, BigInteger or BigDecimal. */
    private static Object numeric(String written) {
        boolean isHex = written.startsWith("0x");
        String body = isHex ? written.substring(2) : written;
        if (body.endsWith("l")) {
            return Long.valueOf(body.substring(0, body.length() - 1), isHex ? 16 : 10);
        }
        if (isHex) {
            return Integer.parseUnsignedInt(body, 16);
        }
        if (body.endsWith("bi")) {
            return new BigInteger(body.substring(0, body.length() - 2));
        }
        if (body.endsWith("bd")) {
            return new BigDecimal(body.substring(0, body.length() - 2));
        }
        if (body.endsWith("f")) {
            return finite(Float.valueOf(body));
        }
        if (body.endsWith("d") || body.contains("e") || body.contains(".")) {
            return finite(Double.valueOf(body));
        }
        long value = Long.parseLong(body);
        if (value == (int) value) {
            return (int) value;
        }
        return value;
    }

    private static Number finite(Number number) {
        if (Double.isInfinite(number.doubleValue())) {
            throw new NumberFormatException();
        }
        return number;
    }

    /** A literal of JDBC's escape syntax: {d '..'}, {t '..'} or {ts '..'}. */
    private Token temporal() {
        int start = at++;
        skipBlanks();
        String sort = text.substring(at, identifierEnd(at)).toLowerCase(Locale.ROOT);
        at += sort.length();
        skipBlanks();
        if (!List.of("d", "t", "ts").contains(sort) || at >= text.length() || text.charAt(at) != '\'') {
            throw fault(start, "expected {d 'yyyy-mm-dd'}, {t 'hh:mm:ss'} or {ts 'yyyy-mm-dd hh:mm:ss.f'}");
        }
        String body = (String) string().value();
        skipBlanks();
        if (at >= text.length() || text.charAt(at) != '}') {
            throw fault(at, "expected \"}\" at the end of the literal");
        }
        at++;
        return new Token(Token.Kind.TEMPORAL, start, text.substring(start, at), time(start, sort, body));
    }

    private Object time(int start, String sort, String body) {
        try {
            return switch (sort) {
                case "d" -> LocalDate.parse(body);
                case "t" -> LocalTime.parse(body);
                default -> LocalDateTime.parse(body.trim().replaceFirst(" +", "T"));
            };
        } catch (DateTimeParseException e) {
            throw fault(start, "\"" + body + "\" is no "
                    + (sort.equals("d") ? "date, as 2026-11-29" : sort.equals("t") ? "time, as 08:15:00"
                            : "date with a time, as 2026-11-29 08:15:00.5"));
        }
    }

    private QueryFault fault(int offset, String reason) {
        return QueryFault.at(text, offset, reason);
    }
}
