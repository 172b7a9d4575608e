package karzhoul.jpa.engine;

import java.io.EOFException;
import java.io.IOException;
import java.io.InputStream;
import java.nio.charset.StandardCharsets;
import java.util.ArrayList;
import java.util.Arrays;
import java.util.List;
import karzhoul.jpa.model.Callbacks;

/**
 * Reads reply lines, which have one fixed form each and no blanks: so by hand. It counts the objects that the
 * program has made, by what it reads. Not for several threads at a time.
 */
final class Replies {
    private static final Callbacks.Event[] KINDS = Callbacks.Event.values();
    private static final byte[] NOTHING = "{\"events\":[],\"ok\":null}".getBytes(StandardCharsets.ISO_8859_1);
    private static final Reply DONE = new Reply(null, null, null, List.of(), null);

    private final InputStream in;
    private byte[] bytes = new byte[1 << 16];
    private int start;
    private int limit;
    private int at;
    private long made;
    private boolean isRefused;
    /** What the lists have that are being read, the outer ones first. */
    private Object[] items = new Object[64];
    private int itemCount;

    Replies(InputStream in) {
        this.in = in;
    }

    /** The highest number of an object that was told. */
    long made() {
        return made;
    }

    /** Numbers begin anew. */
    void restarted() {
        made = 0;
    }

    /** The next line; what it is about is what its call said. Most of them tell nothing, and are one and the same. */
    Reply next(Object about) throws IOException {
        int end = line();
        at = start;
        start = end + 1;
        return Arrays.equals(bytes, at, end, NOTHING, 0, NOTHING.length) ? DONE : reply(about);
    }

    private int line() throws IOException {
        int i = start;
        for (;;) {
            while (i < limit && bytes[i] != '\n') {
                i++;
            }
            if (i < limit) {
                return i;
            }
            if (start > 0) {
                System.arraycopy(bytes, start, bytes, 0, limit - start);
                i -= start;
                limit -= start;
                start = 0;
            }
            if (limit == bytes.length) {
                bytes = Arrays.copyOf(bytes, 2 * limit);
            }
            int n = in.read(bytes, limit, bytes.length - limit);
            if (n < 0) {
                throw new EOFException("the program's output has ended");
            }
            limit += n;
        }
    }

    private Reply reply(Object about) {
        Object ok = null;
        String error = null;
        String why = null;
        isRefused = false;
        List<Event> events = List.of();
        expect('{');
        for (;;) {
            byte first = bytes[at + 1];
            if (first == 'o') {
                at += 5;
                ok = value();
            } else if (bytes[at + 2] == 'v') {
                at += 9;
                events = events();
            } else {
                at += 8;
                isRefused = true;
                expect('{');
                String name;
                do {
                    name = text();
                    expect(':');
                    Object told = value();
                    if (name.equals("name")) {
                        error = (String) told;
                    } else if (name.equals("why")) {
                        why = (String) told;
                    }
                } while (bytes[at++] == ',');
            }
            if (bytes[at++] == '}') {
                return new Reply(ok, error, why, events, about);
            }
        }
    }

    private List<Event> events() {
        expect('[');
        if (bytes[at] == ']') {
            at++;
            return List.of();
        }
        List<Event> events = new ArrayList<>(4);
        do {
            expect('[');
            Callbacks.Event kind = kind();
            expect(',');
            long number = number();
            made(number);
            while (bytes[at] == ',') {      // the names of listeners that ran
                at++;
                value();
            }
            expect(']');
            events.add(new Event(kind, number));
        } while (bytes[at++] == ',');
        return events;
    }

    private Callbacks.Event kind() {
        String name = text();
        for (Callbacks.Event kind : KINDS) {
            if (kind.name().equals(name)) {
                return kind;
            }
        }
        throw new IllegalStateException("the program told an unknown event: " + name);
    }

    private Object value() {
        switch (bytes[at]) {
            case 'n':
                at += 4;
                return null;
            case 't':
                at += 4;
                return Boolean.TRUE;
            case 'f':
                at += 5;
                return Boolean.FALSE;
            case '"':
                return text();
            case '[':
                return list();
            case '{':
                return object();
            default:
                return number();
        }
    }

    private List<Object> list() {
        at++;
        if (bytes[at] == ']') {
            at++;
            return List.of();
        }
        int from = itemCount;
        do {
            Object item = value();
            if (itemCount == items.length) {
                items = Arrays.copyOf(items, 2 * itemCount);
            }
            items[itemCount++] = item;
        } while (bytes[at++] == ',');
        Object[] list = Arrays.copyOfRange(items, from, itemCount);
        Arrays.fill(items, from, itemCount, null);
        itemCount = from;
        return Arrays.asList(list);
    }

    /** One of the objects of a reply, told by the first letter of its first member. */
    private Object object() {
        Object told;
        switch (bytes[at + 2]) {
            case 'o':                       // {"object":n}
                at += 10;
                long number = number();
                made(number);
                told = new Ref(number);
                break;
            case 'h':                       // {"hex":"0aff"}
                at += 7;
                told = hex();
                break;
            case 'k':                       // {"key":[..]}
                at += 7;
                told = new Shown.KeyOf(list());
                break;
            case 'u':                       // {"unread":true}
                at += 14;
                told = Shown.UNREAD;
                break;
            default:                        // {"entity":"..","relations":[..],"values":[..]}
                at += 10;
                String entity = text();
                at += 13;
                Object[] relations = list().toArray();
                at += 10;
                told = new Shown(entity, relations, list().toArray());
        }
        expect('}');
        return told;
    }

    private byte[] hex() {
        expect('"');
        int end = at;
        while (bytes[end] != '"') {
            end++;
        }
        byte[] told = new byte[(end - at) / 2];
        for (int i = 0; i < told.length; i++) {
            told[i] = (byte) (digit(bytes[at]) << 4 | digit(bytes[at + 1]));
            at += 2;
        }
        at++;
        return told;
    }

    private static int digit(byte b) {
        return b <= '9' ? b - '0' : (b | 32) - 'a' + 10;
    }

    private long number() {
        boolean isNegative = bytes[at] == '-';
        if (isNegative) {
            at++;
        }
        long n = 0;                         // kept below zero, where there is one number more
        while (bytes[at] >= '0' && bytes[at] <= '9') {
            n = n * 10 - (bytes[at++] - '0');
        }
        return isNegative ? n : -n;
    }

    private String text() {
        int from = ++at;
        boolean isAscii = true;
        while (bytes[at] != '"') {
            if (bytes[at] == '\\') {
                return escaped(from);
            }
            isAscii &= bytes[at++] >= 0;
        }
        return new String(bytes, from, at++ - from, isAscii ? StandardCharsets.ISO_8859_1 : StandardCharsets.UTF_8);
    }

    private String escaped(int from) {
        while (bytes[at] != '"') {
            at += bytes[at] == '\\' ? 2 : 1;
        }
        String raw = new String(bytes, from, at++ - from, StandardCharsets.UTF_8);
        StringBuilder text = new StringBuilder(raw.length());
        for (int i = 0; i < raw.length(); i++) {
            char c = raw.charAt(i);
            if (c != '\\') {
                text.append(c);
                continue;
            }
            c = raw.charAt(++i);
            if (c == 'u') {
                text.append((char) Integer.parseInt(raw, i + 1, i + 5, 16));
                i += 4;
            } else {
                text.append(unescaped(c));
            }
        }
        return text.toString();
    }

    private static char unescaped(char c) {
        switch (c) {
            case 'n': return '\n';
            case 't': return '\t';
            case 'r': return '\r';
            case 'b': return '\b';
            case 'f': return '\f';
            default: return c;
        }
    }

    /** Counts; what a refused call made was given up. */
    private void made(long number) {
        if (number > made && !isRefused) {
            made = number;
        }
    }

    private void expect(char c) {
        if (bytes[at] != c) {
            throw new IllegalStateException("the program's reply isn't one: " + (char) bytes[at] + " in place of " + c);
        }
        at++;
    }
}
