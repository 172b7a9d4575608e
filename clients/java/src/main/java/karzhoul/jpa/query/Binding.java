package karzhoul.jpa.query;

import jakarta.persistence.PersistenceException;
import java.nio.ByteBuffer;
import java.util.ArrayList;
import java.util.Collection;
import java.util.HashMap;
import java.util.IdentityHashMap;
import java.util.List;
import java.util.Map;
import karzhoul.jpa.model.Codec;
import karzhoul.jpa.model.Limits;
import karzhoul.jpa.query.Tree.Asked;
import karzhoul.jpa.query.Tree.Literal;
import karzhoul.jpa.query.Tree.Now;
import karzhoul.jpa.query.Tree.Parameter;
import karzhoul.jpa.query.Tree.Outer;
import karzhoul.jpa.query.Tree.PartOf;
import karzhoul.jpa.query.Tree.Reference;
import karzhoul.jpa.query.Tree.Value;

/** The values of one execution, and the program's parameters that are made of them. */
final class Binding {
    /** The most bytes that stand as a literal in a text. */
    private static final int LONGEST_LITERAL = 200;

    final Asking asking;
    final Clock clock;
    final Hints.Deadline deadline;
    private final Map<Object, Object> given;
    private final Map<Reference, Object> outside;
    private Map<Integer, Object> asked = Map.of();
    private final List<Asking.Parameter> bound = new ArrayList<>();
    private final Map<Object, String> names = new HashMap<>();

    Binding(Asking asking, Map<Object, Object> given, Hints.Deadline deadline) {
        this.asking = asking;
        this.given = given;
        this.deadline = deadline;
        this.outside = Map.of();
        this.clock = new Clock();
    }

    /** The same execution, of a block that is asked before. */
    Binding(Binding outer) {
        this(outer, outer.outside);
    }

    private Binding(Binding outer, Map<Reference, Object> outside) {
        this.asking = outer.asking;
        this.given = outer.given;
        this.deadline = outer.deadline;
        this.outside = outside;
        this.clock = outer.clock;
    }

    /** The same execution, of a block that is asked for a row: what its paths from outside are there. */
    static Binding ofRow(Binding outer, Map<Reference, Object> row) {
        Map<Reference, Object> outside = new IdentityHashMap<>(outer.outside);
        outside.putAll(row);
        return new Binding(outer, outside);
    }

    /** The parameters of the text that was written last. */
    List<Asking.Parameter> parameters() {
        return List.copyOf(bound);
    }

    /** Begins another text. */
    void clear() {
        bound.clear();
        names.clear();
    }

    /** Refuses a text that is too long for the program, in words. */
    void checkLength(String text) {
        int most = Grammar.PROGRAM.bytes();
        if (text.length() > most) {
            throw new IllegalArgumentException("the statement has " + text.length() + " letters as the program is asked it, and"
                    + " at most " + most + " are served; write fewer values in it, or give them as a parameter of IN");
        }
    }

    /** Keeps what a block of its own has answered. */
    void answer(int number, Object value) {
        if (asked.isEmpty()) {
            asked = new HashMap<>();
        }
        asked.put(number, value);
    }

    /** Whether a value is known before any row is read. */
    static boolean isConstant(Value value) {
        return value instanceof Literal || value instanceof Parameter || value instanceof Now || value instanceof Asked
                || value instanceof PartOf || value instanceof Outer;
    }

    /** What a literal, a parameter or the like is. */
    Object constant(Value value) {
        if (value instanceof Literal literal) {
            return literal.value();
        }
        if (value instanceof Now now) {
            return clock.local(now.kind());
        }
        if (value instanceof Asked block) {
            return asked.get(block.number());
        }
        if (value instanceof Outer outer) {
            return outside.get(outer.path());
        }
        if (value instanceof PartOf part) {
            Object key = constant(part.parameter());
            return key == null ? null : part.entity().key().parts().get(part.place()).codec()
                    .toAttribute(part.entity().key().columnsOf(key).get(part.place()));
        }
        return given.get(((Parameter) value).key());
    }

    /** A literal of what the program keeps, or a parameter. */
    String written(Object column) {
        if (column instanceof Long number && number != Long.MIN_VALUE) {
            return number.toString();
        }
        if (column instanceof String text && isPlain(text)) {
            return "'" + text.replace("'", "''") + "'";
        }
        return parameter(column);
    }

    private static boolean isPlain(String text) {
        return text.length() <= LONGEST_LITERAL && text.chars().allMatch(c -> c >= ' ' && c < 127);
    }

    /** A parameter of the program; one for each value. */
    String parameter(Object column) {
        Object key = column instanceof byte[] bytes ? ByteBuffer.wrap(bytes) : column;
        return names.computeIfAbsent(key == null ? "null" : List.of(key), k -> bind(column));
    }

    private String bind(Object value) {
        String name = "p" + bound.size();
        bound.add(new Asking.Parameter(name, value));
        return ":" + name;
    }

    /** Parameters of the program that have these values together, one at least; each as many as a list may have. */
    List<String> lists(Collection<Object> columns) {
        List<Object> all = new ArrayList<>(columns);
        List<String> lists = new ArrayList<>();
        int most = Grammar.PROGRAM.list();
        for (int from = 0; from == 0 || from < all.size(); from += most) {
            lists.add(bind(all.subList(from, Math.min(all.size(), from + most))));
        }
        return lists;
    }

    /** What a codec keeps of a value that stands beside its attribute. */
    Object kept(Codec codec, Value source, Object value) {
        try {
            return codec.toColumn(Conversions.to(codec.javaType(), value));
        } catch (IllegalArgumentException e) {
            throw new IllegalArgumentException(told(source) + ": " + e.getMessage(), e);
        } catch (PersistenceException e) {
            throw e;
        } catch (RuntimeException e) {
            throw new PersistenceException(told(source) + ": " + e.getMessage(), e);
        }
    }

    /** A text that stands beside no attribute, as the program has it. */
    static String text(Value source, Object value) {
        try {
            return Limits.text(value.toString());
        } catch (IllegalArgumentException e) {
            throw new IllegalArgumentException(told(source) + ": " + e.getMessage(), e);
        }
    }

    /**
     * A number that is computed with, as a whole one of so many decimal places.
     *
     * @throws Inexact where it has more of them or is beyond 64 bits, and stands among decimals
     * @throws IllegalArgumentException where it isn't among the whole numbers, and stands among these
     */
    Long exact(Value source, Object value, int scale, boolean isDecimal) {
        try {
            return Decimals.exact(value, scale);
        } catch (IllegalArgumentException e) {
            String reason = told(source) + ": " + e.getMessage();
            throw isDecimal ? new Inexact(reason, e) : new IllegalArgumentException(reason, e);
        }
    }

    /** An object as a parameter, or null. */
    Asking.Ref thing(Value source, Object value) {
        try {
            return value == null || value instanceof Asking.Ref ? (Asking.Ref) value : asking.refOf(value);
        } catch (IllegalArgumentException e) {
            throw new IllegalArgumentException(told(source) + ": " + e.getMessage(), e);
        }
    }

    private static String told(Value source) {
        return source instanceof Parameter parameter ? "the parameter " + parameter : "a value of the query";
    }
}
