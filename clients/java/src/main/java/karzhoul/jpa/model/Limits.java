package karzhoul.jpa.model;

/** What the program keeps of texts and bytes, and refuses beyond. */
public final class Limits {
    /** The most bytes of a text, as UTF-8, or of bytes. */
    static final int LONGEST = 65_535;

    private Limits() {}

    /**
     * The text itself.
     *
     * @throws IllegalArgumentException where it is too long, or has half a surrogate pair
     */
    public static String text(String text) {
        int bytes = 0;
        for (int i = 0; i < text.length(); i++) {
            char at = text.charAt(i);
            if (at < 0x80) {
                bytes++;
            } else if (at < 0x800) {
                bytes += 2;
            } else if (!Character.isSurrogate(at)) {
                bytes += 3;
            } else if (i + 1 < text.length() && Character.isSurrogatePair(at, text.charAt(i + 1))) {
                bytes += 4;
                i++;
            } else {
                throw new IllegalArgumentException("the text has half a surrogate pair at its place " + i);
            }
        }
        if (bytes > LONGEST) {
            throw new IllegalArgumentException(
                    "the text has " + bytes + " bytes of UTF-8, and at most " + LONGEST + " are kept");
        }
        return text;
    }

    /**
     * A copy of the bytes.
     *
     * @throws IllegalArgumentException where there are too many
     */
    static byte[] bytes(byte[] bytes) {
        if (bytes.length > LONGEST) {
            throw new IllegalArgumentException("there are " + bytes.length + " bytes, and at most " + LONGEST
                    + " are kept");
        }
        return bytes.clone();
    }
}
