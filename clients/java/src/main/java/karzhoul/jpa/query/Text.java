package karzhoul.jpa.query;

import java.util.ArrayList;
import java.util.List;

/**
 * A text of the program's language, parts of which are known as it is executed. Once it is made, threads may write it
 * at the same time.
 */
final class Text {
    /** A part that is known as the statement is executed. */
    interface Part {
        void write(Binding binding, StringBuilder text);
    }

    private record Fixed(String text) implements Part {
        @Override
        public void write(Binding binding, StringBuilder to) {
            to.append(text);
        }
    }

    private final List<Part> parts = new ArrayList<>();
    private final StringBuilder fixed = new StringBuilder();

    static Text of(String text) {
        return new Text().add(text);
    }

    Text add(String more) {
        fixed.append(more);
        return this;
    }

    Text add(Part part) {
        flush();
        parts.add(part);
        return this;
    }

    Text add(Text more) {
        more.flush();
        flush();
        parts.addAll(more.parts);
        return this;
    }

    boolean isEmpty() {
        return parts.isEmpty() && fixed.isEmpty();
    }

    private void flush() {
        if (!fixed.isEmpty()) {
            parts.add(new Fixed(fixed.toString()));
            fixed.setLength(0);
        }
    }

    /** The text that doesn't depend on values, for what is counted in it. */
    String shape() {
        flush();
        StringBuilder text = new StringBuilder();
        for (Part part : parts) {
            if (part instanceof Fixed known) {
                text.append(known.text());
            }
        }
        return text.toString();
    }

    /** Whether both are one text, whatever the values. */
    boolean isSame(Text other) {
        flush();
        other.flush();
        return parts.equals(other.parts) && parts.stream().allMatch(Fixed.class::isInstance);
    }

    /** The text for these values. */
    String written(Binding binding) {
        StringBuilder text = new StringBuilder();
        for (Part part : parts) {
            part.write(binding, text);
        }
        return text.append(fixed).toString();
    }

    /** The texts with something between. */
    static Text joined(String between, List<Text> all) {
        Text text = new Text();
        for (int place = 0; place < all.size(); place++) {
            text.add(place == 0 ? "" : between).add(all.get(place));
        }
        return text;
    }
}
