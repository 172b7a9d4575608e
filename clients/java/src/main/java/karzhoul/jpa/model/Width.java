package karzhoul.jpa.model;

import jakarta.persistence.Column;
import jakarta.persistence.Lob;
import jakarta.persistence.MapKeyColumn;
import java.math.BigDecimal;
import java.math.BigInteger;
import java.util.Optional;

/**
 * What a column has room for, where its annotation says so (chapter 11.1.9): digits of a decimal, and letters of a text.
 * What is stored is held to it. What is only read or compared isn't: a store may have more from before.
 *
 * @param most the greatest number as it is kept; that of 64 bits where none is said
 * @param letters the most letters; 0 where none are said
 * @param said the annotation, as words of a refusal
 */
public record Width(long most, int letters, String said) {
    /** That of a column of which nothing is said. */
    public static final Width ANY = new Width(Long.MAX_VALUE, 0, "");

    /** What a column has where nothing is said of it; whoever writes that says nothing either. */
    private static final int USUAL_LENGTH = 255;
    private static final int LONGEST_SHOWN = 40;
    private static final String DECIMAL = "decimal of ";

    /** That of a member's column. */
    static Width of(Member member, Codec codec, Optional<Column> column) {
        return column.isEmpty() ? ANY : of("@Column", codec, column.get().precision(), column.get().scale(),
                member.has(Lob.class) ? USUAL_LENGTH : column.get().length());
    }

    /** That of the column of a map's keys. */
    static Width ofMapKey(Member member, Codec codec) {
        Optional<MapKeyColumn> column = member.find(MapKeyColumn.class);
        return column.isEmpty() ? ANY : of("@MapKeyColumn", codec, column.get().precision(), column.get().scale(),
                column.get().length());
    }

    private static Width of(String annotation, Codec codec, int precision, int scale, int length) {
        int places = places(codec);
        if (places >= 0 && precision > 0) {
            int digits = precision - scale + places;
            boolean isLess = digits < String.valueOf(Long.MAX_VALUE).length();
            long most = !isLess ? Long.MAX_VALUE
                    : BigDecimal.ONE.scaleByPowerOfTen(Math.max(digits, 0)).longValueExact() - 1;
            return new Width(most, 0, annotation + "(precision = " + precision + ", scale = " + scale + ")");
        }
        boolean isText = codec.sort() == Sort.TEXT && word(codec).equals("text");
        return !isText || length == USUAL_LENGTH ? ANY
                : new Width(Long.MAX_VALUE, Math.max(length, 1), annotation + "(length = " + length + ")");
    }

    /** How many digits behind the point a decimal is kept with; below 0 of what is none. */
    private static int places(Codec codec) {
        String word = word(codec);
        return word.startsWith(DECIMAL) ? Integer.parseInt(word.substring(DECIMAL.length()))
                : codec.javaType() == BigInteger.class && word.equals("whole") ? 0 : -1;
    }

    /** How it is kept, whether a converter stands before it or not. */
    private static String word(Codec codec) {
        String converted = " by a converter";
        String meaning = codec.meaning();
        return meaning.endsWith(converted) ? meaning.substring(0, meaning.length() - converted.length()) : meaning;
    }

    /**
     * Judges what is stored.
     *
     * @param value the attribute's value
     * @param column what is kept of it
     * @throws IllegalArgumentException in words, where there is no room for it
     */
    public void check(Object value, Object column) {
        if (most != Long.MAX_VALUE && column instanceof Long number && (number > most || number < -most)) {
            int digits = BigDecimal.valueOf(number).precision();
            throw new IllegalArgumentException(value + " can't be kept: it has " + digits + " digits as it is kept, and "
                    + said + " has room for " + BigDecimal.valueOf(most).precision() + "; declare a greater precision");
        } else if (letters > 0 && column instanceof String text && text.length() > letters
                && text.codePointCount(0, text.length()) > letters) {
            throw new IllegalArgumentException(shown(text) + " can't be kept: it has "
                    + text.codePointCount(0, text.length()) + " letters, and " + said + " has room for " + letters
                    + "; declare a greater length");
        }
    }

    private static String shown(String text) {
        return text.codePointCount(0, text.length()) <= LONGEST_SHOWN ? "\"" + text + "\""
                : "\"" + text.substring(0, text.offsetByCodePoints(0, LONGEST_SHOWN)) + "..\"";
    }
}
