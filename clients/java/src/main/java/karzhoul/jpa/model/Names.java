package karzhoul.jpa.model;

import java.util.HashSet;
import java.util.Locale;
import java.util.Set;

/** Names and numbers of the program's mapping, made of those of Java and of tables. */
final class Names {
    /** How long a name of the mapping may be. */
    private static final int LONGEST = 64;

    /**
     * The highest number of a table or a column that a name gives; the program has a thousand more, which are the
     * door's.
     */
    private static final int HIGHEST = 999_000;

    private final Set<String> taken = new HashSet<>();

    /** A name of the mapping for a path or a name of Java, which no other one of this scope has. */
    String give(String path) {
        String plain = plain(path);
        String name = plain;
        for (int i = 2; !taken.add(name); i++) {
            String end = "_" + i;
            name = plain.substring(0, Math.min(plain.length(), LONGEST - end.length())) + end;
        }
        return name;
    }

    /** A path in the letters, digits and underscores of the mapping. */
    private static String plain(String path) {
        StringBuilder name = new StringBuilder();
        path.codePoints().forEach(code -> {
            if (code == '.') {
                name.append("__");
            } else if (code < 128 && (Character.isLetterOrDigit(code) || code == '_')) {
                name.appendCodePoint(code);
            } else {
                name.append("_u").append(Integer.toHexString(code));
            }
        });
        if (Character.isDigit(name.charAt(0))) {
            name.insert(0, '_');
        }
        if (name.length() <= LONGEST) {
            return name.toString();
        }
        String end = "_" + Long.toHexString(hash(path));
        return name.substring(0, LONGEST - end.length()) + end;
    }

    /**
     * The number of a table or a column. It hangs on the name alone, so that it is the same at each start; as in SQL
     * the case of letters doesn't count.
     */
    static int number(String name) {
        long hash = hash(name.toLowerCase(Locale.ROOT));
        return (int) Math.floorMod(hash ^ (hash >>> 32), (long) HIGHEST) + 1;
    }

    /** FNV-1a of 64 bits, over the characters. */
    private static long hash(String text) {
        long hash = 0xcbf29ce484222325L;
        for (int i = 0; i < text.length(); i++) {
            hash = (hash ^ text.charAt(i)) * 0x100000001b3L;
        }
        return hash;
    }
}
