package karzhoul.jpa.engine;

import java.nio.charset.StandardCharsets;
import java.util.Arrays;
import java.util.List;

/**
 * Calls of the program, each as a line of JSON, written straight into one buffer. Each method adds one call.
 * Not for several threads at a time.
 */
public final class Lines {
    private static final byte[] HEX = "0123456789abcdef".getBytes(StandardCharsets.ISO_8859_1);

    private byte[] bytes = new byte[512];
    private int length;
    private int[] ends = new int[16];
    private Object[] abouts = new Object[16];
    private int count;

    /** How many calls there are. */
    public int count() {
        return count;
    }

    public boolean isEmpty() {
        return count == 0;
    }

    /** How many bytes they are. */
    public int length() {
        return length;
    }

    byte[] bytes() {
        return bytes;
    }

    /** Where the line of this place ends, behind its line feed. */
    int end(int place) {
        return ends[place];
    }

    /** What the call of this place is about, for the words of a refusal. */
    Object about(int place) {
        return abouts[place];
    }

    /** Takes all calls away. */
    public void clear() {
        Arrays.fill(abouts, 0, count, null);
        length = 0;
        count = 0;
        if (bytes.length > 1 << 20) {
            bytes = new byte[512];
        }
    }

    /** Takes the last calls away, until so many are left. */
    public void cut(int left) {
        Arrays.fill(abouts, left, count, null);
        count = left;
        length = left == 0 ? 0 : ends[left - 1];
    }

    /** Adds the calls of another one behind these. */
    public void addAll(Lines others) {
        reserve(others.length);
        System.arraycopy(others.bytes, 0, bytes, length, others.length);
        for (int i = 0; i < others.count; i++) {
            mark(length + others.ends[i], others.abouts[i]);
        }
        length += others.length;
    }

    /** Says of the last call what it is about. */
    public Lines about(Object what) {
        abouts[count - 1] = what;
        return this;
    }

    public Lines createEntityManager() {
        return put("{\"call\":\"createEntityManager\"}").end();
    }

    /** The program's managers never flush by themselves before a query; the door does. */
    public Lines flushAtCommit(long manager) {
        return put("{\"call\":\"setFlushMode\",\"em\":").put(manager).put(",\"mode\":\"COMMIT\"}").end();
    }

    public Lines newObject(String entity) {
        return put("{\"call\":\"new\",\"entity\":\"").put(entity).put("\"}").end();
    }

    /** Says that an attribute or a part of a key will be looked up, by the names in the mapping. */
    public Lines index(String entity, String member) {
        return put("{\"call\":\"index\",\"entity\":\"").put(entity).put("\",\"name\":\"").put(member).put("\"}").end();
    }

    public Lines restart() {
        return put("{\"call\":\"restart\"}").end();
    }

    /** Closes a manager, whose number names none from then on. */
    public Lines close(long manager) {
        return of("close", manager);
    }

    public Lines begin(long manager) {
        return of("begin", manager);
    }

    public Lines flush(long manager) {
        return of("flush", manager);
    }

    public Lines commit(long manager) {
        return of("commit", manager);
    }

    public Lines rollback(long manager) {
        return of("rollback", manager);
    }

    public Lines setRollbackOnly(long manager) {
        return of("setRollbackOnly", manager);
    }

    public Lines clearAll(long manager) {
        return of("clear", manager);
    }

    public Lines pending(long manager) {
        return of("pending", manager);
    }

    public Lines persist(long manager, long object) {
        return of("persist", manager, object);
    }

    public Lines remove(long manager, long object) {
        return of("remove", manager, object);
    }

    public Lines refresh(long manager, long object) {
        return of("refresh", manager, object);
    }

    public Lines merge(long manager, long object) {
        return of("merge", manager, object);
    }

    public Lines detach(long manager, long object) {
        return of("detach", manager, object);
    }

    public Lines lock(long manager, long object, String mode) {
        return open("lock", manager, object).put(",\"mode\":\"").put(mode).put("\"}").end();
    }

    /** Finds the object of a key, whose parts are as they are kept. */
    public Lines find(long manager, String entity, List<?> key) {
        put("{\"call\":\"find\",\"em\":").put(manager).put(",\"entity\":\"").put(entity).put("\",\"key\":");
        return list(key).put('}').end();
    }

    public Lines get(long object, String member) {
        return put("{\"call\":\"get\",\"object\":").put(object).put(",\"name\":\"").put(member).put("\"}").end();
    }

    public Lines set(long object, String member, Object value) {
        setTo(object, member);
        return value(value).put('}').end();
    }

    /** Sets a link to an object, or to nothing, which is 0. */
    public Lines link(long object, String member, long target) {
        setTo(object, member);
        if (target == 0) {
            return put("null}").end();
        }
        return object(target).put('}').end();
    }

    public Lines add(long object, String member, long added) {
        return ofMember("add", object, member, added);
    }

    public Lines takeOut(long object, String member, long taken) {
        return ofMember("takeOut", object, member, taken);
    }

    /** Asks what can be read of these objects without loading anything. */
    public Lines values(long[] objects, int from, int to) {
        put("{\"call\":\"values\",\"objects\":[");
        for (int i = from; i < to; i++) {
            if (i > from) {
                put(',');
            }
            put(objects[i]);
        }
        return put("]}").end();
    }

    /** A statement; {@code call} is query or executeUpdate. Names and values of parameters, which may be lists, go in pairs. */
    public Lines statement(String call, long manager, String text, List<?> parameters, Integer first, Integer max) {
        open(call, manager).put(",\"text\":").value(text);
        if (!parameters.isEmpty()) {
            put(",\"params\":{");
            for (int i = 0; i < parameters.size(); i += 2) {
                if (i > 0) {
                    put(',');
                }
                value(String.valueOf(parameters.get(i))).put(':').value(parameters.get(i + 1));
            }
            put('}');
        }
        if (first != null) {
            put(",\"first\":").put(first);
        }
        if (max != null) {
            put(",\"max\":").put(max);
        }
        return put('}').end();
    }

    private Lines of(String call, long manager) {
        return open(call, manager).put('}').end();
    }

    private Lines of(String call, long manager, long object) {
        return open(call, manager, object).put('}').end();
    }

    private Lines open(String call, long manager) {
        return put("{\"call\":\"").put(call).put("\",\"em\":").put(manager);
    }

    private Lines open(String call, long manager, long object) {
        return open(call, manager).put(",\"object\":").put(object);
    }

    private void setTo(long object, String member) {
        put("{\"call\":\"set\",\"object\":").put(object).put(",\"name\":\"").put(member).put("\",\"value\":");
    }

    private Lines ofMember(String call, long object, String member, long other) {
        put("{\"call\":\"").put(call).put("\",\"object\":").put(object).put(",\"name\":\"").put(member);
        return put("\",\"member\":").put(other).put('}').end();
    }

    private Lines object(long number) {
        return put("{\"object\":").put(number).put('}');
    }

    private Lines value(Object value) {
        if (value == null) {
            return put("null");
        } else if (value instanceof Long number) {
            return put(number.longValue());
        } else if (value instanceof String text) {
            return text(text);
        } else if (value instanceof byte[] some) {
            return hex(some);
        } else if (value instanceof Ref ref) {
            return object(ref.number());
        } else if (value instanceof List<?> list) {
            return list(list);
        }
        throw new IllegalArgumentException("a value of " + value.getClass().getName() + " is none of the program's");
    }

    private Lines list(List<?> list) {
        put('[');
        for (int i = 0; i < list.size(); i++) {
            if (i > 0) {
                put(',');
            }
            value(list.get(i));
        }
        return put(']');
    }

    private Lines hex(byte[] some) {
        put("{\"hex\":\"");
        reserve(2 * some.length);
        for (byte b : some) {
            bytes[length++] = HEX[b >> 4 & 15];
            bytes[length++] = HEX[b & 15];
        }
        return put("\"}");
    }

    private Lines text(String text) {
        reserve(6 * text.length() + 2);
        bytes[length++] = '"';
        for (int i = 0; i < text.length(); i++) {
            char c = text.charAt(i);
            if (c >= 128) {
                i = beyondAscii(text, i);
            } else if (c < ' ') {
                bytes[length++] = '\\';
                bytes[length++] = 'u';
                bytes[length++] = '0';
                bytes[length++] = '0';
                bytes[length++] = HEX[c >> 4];
                bytes[length++] = HEX[c & 15];
            } else {
                if (c == '"' || c == '\\') {
                    bytes[length++] = '\\';
                }
                bytes[length++] = (byte) c;
            }
        }
        bytes[length++] = '"';
        return this;
    }

    private int beyondAscii(String text, int i) {
        int c = text.codePointAt(i);
        if (c < 0x800) {
            bytes[length++] = (byte) (0xc0 | c >> 6);
        } else {
            if (c >= 0x10000) {
                bytes[length++] = (byte) (0xf0 | c >> 18);
                bytes[length++] = (byte) (0x80 | c >> 12 & 63);
            } else if (Character.isSurrogate((char) c)) {
                length = count == 0 ? 0 : ends[count - 1];
                throw new IllegalArgumentException("the text has half of a surrogate pair, at " + i);
            } else {
                bytes[length++] = (byte) (0xe0 | c >> 12);
            }
            bytes[length++] = (byte) (0x80 | c >> 6 & 63);
        }
        bytes[length++] = (byte) (0x80 | c & 63);
        return c >= 0x10000 ? i + 1 : i;
    }

    /** (a loop here would be unrolled into each call, which the JVM compiles for seconds) */
    @SuppressWarnings("deprecation")
    private Lines put(String ascii) {
        int n = ascii.length();
        reserve(n);
        ascii.getBytes(0, n, bytes, length);
        length += n;
        return this;
    }

    private Lines put(char c) {
        reserve(1);
        bytes[length++] = (byte) c;
        return this;
    }

    private Lines put(long number) {
        if (number < 0 || number >= 1_000_000_000) {
            return put(Long.toString(number));
        }
        reserve(10);
        int digits = 1;
        for (long n = number; n >= 10; n /= 10) {
            digits++;
        }
        long rest = number;
        for (int i = length + digits - 1; i >= length; i--) {
            bytes[i] = (byte) ('0' + rest % 10);
            rest /= 10;
        }
        length += digits;
        return this;
    }

    private Lines end() {
        put('\n');
        mark(length, null);
        return this;
    }

    private void mark(int end, Object about) {
        if (count == ends.length) {
            ends = Arrays.copyOf(ends, 2 * count);
            abouts = Arrays.copyOf(abouts, 2 * count);
        }
        ends[count] = end;
        abouts[count++] = about;
    }

    private void reserve(int more) {
        if (length + more > bytes.length) {
            bytes = Arrays.copyOf(bytes, Math.max(2 * bytes.length, length + more));
        }
    }

    @Override
    public String toString() {
        return new String(bytes, 0, length, StandardCharsets.UTF_8);
    }
}
