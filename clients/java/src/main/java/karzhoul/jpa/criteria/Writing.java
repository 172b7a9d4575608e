package karzhoul.jpa.criteria;

import jakarta.persistence.Parameter;
import jakarta.persistence.criteria.Expression;
import java.time.temporal.Temporal;
import java.util.ArrayList;
import java.util.Calendar;
import java.util.Date;
import java.util.IdentityHashMap;
import java.util.LinkedHashMap;
import java.util.List;
import java.util.Locale;
import java.util.Map;
import karzhoul.jpa.model.EntityModel;
import karzhoul.jpa.model.UnitModel;
import karzhoul.jpa.query.Built;
import karzhoul.jpa.query.Tree;

/** Writes a query in words, and its tree with the places of these. */
final class Writing {
    private final UnitModel unit;
    private final StringBuilder text = new StringBuilder();
    private final Map<FromOf<?, ?>, String> variables = new IdentityHashMap<>();
    private final Map<Parameter<?>, Object> parameters = new LinkedHashMap<>();
    private final Map<Object, Object> values = new LinkedHashMap<>();
    private int names;

    Writing(UnitModel unit) {
        this.unit = unit;
    }

    /** Where the next word stands. */
    int at() {
        return text.length();
    }

    Writing add(String more) {
        text.append(more);
        return this;
    }

    Built built(Tree.Statement tree, Built.Result result) {
        return new Built(text.toString(), tree, parameters, values, result);
    }

    // ---- terms

    Tree.Value value(Expression<?> expression) {
        if (Term.of(expression).write(this) instanceof Tree.Value value) {
            return value;
        }
        throw new IllegalArgumentException("a condition stands where a value is expected: " + text);
    }

    /** Values with commas between them. */
    List<Tree.Value> values(List<? extends Expression<?>> expressions) {
        List<Tree.Value> written = new ArrayList<>();
        for (Expression<?> expression : expressions) {
            add(written.isEmpty() ? "" : ", ");
            written.add(value(expression));
        }
        return written;
    }

    Tree.Condition condition(Term<?> term) {
        return ((Condition) term).write(this);
    }

    // ---- variables

    /** Gives a root, a join or a fetch a name that no other one has. */
    String newName(String entity) {
        char first = Character.toLowerCase(entity.charAt(0));
        names++;
        return (first >= 'a' && first <= 'z' ? String.valueOf(first) : "v") + names;
    }

    String declare(FromOf<?, ?> from) {
        String name = newName(from.getJavaType().getSimpleName());
        variables.put(from, name);
        return name;
    }

    /**
     * The name of a root or a join.
     *
     * @throws IllegalArgumentException where it is none of this query or of one around it
     */
    String name(FromOf<?, ?> from) {
        String name = variables.get(from);
        if (name == null) {
            throw new IllegalArgumentException("a root or a join of " + from.getJavaType().getName()
                    + " is of another query; a subquery joins what is around it by correlate: " + text);
        }
        return name;
    }

    Tree.Path path(FromOf<?, ?> from, List<String> behind) {
        List<String> path = new ArrayList<>(List.of(name(from)));
        path.addAll(behind);
        return path(path);
    }

    Tree.Path path(List<String> path) {
        int at = at();
        add(String.join(".", path));
        return new Tree.Path(at, List.copyOf(path));
    }

    /** KEY, INDEX or ENTRY of a join. */
    Tree.MapPart part(String part, FromOf<?, ?> join) {
        int at = at();
        String name = name(join);
        add(part + "(" + name + ")");
        return new Tree.MapPart(at, part, name, List.of());
    }

    // ---- parameters and constants

    Tree.Parameter parameter(ParameterOf<?> parameter) {
        Object key = parameters.get(parameter);
        if (key == null) {
            key = parameter.getName() != null ? parameter.getName() : new Built.Key(parameters.size() + 1, false);
            parameters.put(parameter, key);
        }
        int at = at();
        add((key instanceof String ? ":" : "?") + key);
        return new Tree.Parameter(at, key);
    }

    /** A value that stands as a parameter. */
    Tree.Parameter bound(Object value) {
        Built.Key key = new Built.Key(values.size() + 1, true);
        values.put(key, value);
        int at = at();
        add("?" + key);
        return new Tree.Parameter(at, key);
    }

    Tree.Value constant(Object value) {
        int at = at();
        if (value instanceof Class<?> type) {
            EntityModel entity = unit.of(type);
            add(entity.name());
            return new Tree.EntityName(at, entity);
        }
        if (value instanceof Character character) {
            return constant(character.toString());
        }
        boolean isLiteral = value == null || value instanceof Number || value instanceof String
                || value instanceof Boolean || value instanceof Enum<?> || value instanceof Temporal
                || value instanceof Date || value instanceof Calendar;
        if (!isLiteral) {
            return bound(value);
        }
        add(told(value));
        return new Tree.Literal(at, value);
    }

    private static String told(Object value) {
        if (value instanceof String string) {
            return "'" + string.replace("'", "''") + "'";
        }
        if (value instanceof Enum<?> constant) {
            return constant.getDeclaringClass().getName().replace('$', '.') + "." + constant.name();
        }
        if (value instanceof Calendar time) {
            return "{" + time.toInstant() + "}";
        }
        boolean isTime = value instanceof Temporal || value instanceof Date;
        return value == null ? "NULL" : isTime ? "{" + value + "}" : value.toString().toUpperCase(Locale.ROOT);
    }
}
