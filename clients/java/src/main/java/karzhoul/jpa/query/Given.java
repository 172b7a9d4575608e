package karzhoul.jpa.query;

import jakarta.persistence.Parameter;
import jakarta.persistence.TemporalType;
import java.time.LocalDateTime;
import java.util.Calendar;
import java.util.Collection;
import java.util.Date;
import java.util.HashMap;
import java.util.LinkedHashSet;
import java.util.Map;
import java.util.Set;

/** The parameters of a query with what they were set to (chapter 3.10.12). */
final class Given {
    /** A parameter as {@code getParameter} answers it. */
    private record Described<T>(String getName, Integer getPosition, Class<T> getParameterType)
            implements Parameter<T> {}

    private final Prepared statement;
    /** The parameters of a criteria query with their keys; empty for one of a text. */
    private final Map<Parameter<?>, Object> expressions;
    private final Map<Object, Object> values = new HashMap<>();

    Given(Prepared statement) {
        this.statement = statement;
        this.expressions = Map.of();
    }

    /** Those of a criteria query; what stands in it as a value is given already. */
    Given(Prepared statement, Built built) {
        this.statement = statement;
        this.expressions = built.parameters();
        values.putAll(built.values());
    }

    Map<Object, Object> values() {
        return values;
    }

    /** Refuses where one isn't set. */
    void needAll() {
        for (ParameterModel model : statement.parameters().values()) {
            if (!values.containsKey(model.key())) {
                throw new IllegalStateException("the parameter " + model.told() + " isn't set: " + statement.text());
            }
        }
    }

    /**
     * Sets one.
     *
     * @throws IllegalArgumentException where there is none of this name or number, or the value isn't of its type
     */
    void set(Object key, Object value) {
        ParameterModel model = model(key);
        needDeclared(model, value);
        if (!takes(model.type(), value)) {
            throw new IllegalArgumentException("the parameter " + model.told() + " is of " + model.type().getName()
                    + ", and " + value + " of " + value.getClass().getName() + ": " + statement.text());
        }
        values.put(key, value);
    }

    /** Refuses what isn't of the type with which a criteria query's parameter was made (chapter 6.5.13). */
    private void needDeclared(ParameterModel model, Object value) {
        boolean isList = model.type() == Collection.class && (value instanceof Collection || value instanceof Object[]);
        if (value == null || isList) {
            return;
        }
        expressions.forEach((parameter, key) -> {
            Class<?> declared = parameter.getParameterType();
            if (key.equals(model.key()) && declared != null && !Classes.boxed(declared).isInstance(value)) {
                throw new IllegalArgumentException("the parameter " + model.told() + " is of " + declared.getName()
                        + ", and " + value + " of " + value.getClass().getName() + ": " + statement.text());
            }
        });
    }

    private static boolean takes(Class<?> type, Object value) {
        if (value == null || type == Object.class || type == Collection.class || type.isInstance(value)) {
            return true;
        }
        Type asked = Type.of(type);
        return asked.isNumber() && value instanceof Number
                || asked.kind() == Type.Kind.STRING && type.isInstance(Conversions.to(type, value));
    }

    /**
     * Sets one to a date of which a TemporalType says what is kept; the attribute's codec takes it or refuses it.
     *
     * @throws IllegalArgumentException where there is none of this name or number, or it is none of a time
     */
    void setTime(Object key, Object time) {
        ParameterModel model = model(key);
        if (model.type() != Object.class && Type.of(model.type()).kind() != Type.Kind.TEMPORAL) {
            throw new IllegalArgumentException("the parameter " + model.told() + " is of " + model.type().getName()
                    + ", and no time: " + statement.text());
        }
        values.put(key, time);
    }

    private ParameterModel model(Object key) {
        ParameterModel model = statement.parameters().get(key);
        if (model == null) {
            throw new IllegalArgumentException("there is no parameter " + (key instanceof String ? ":" : "?") + key
                    + " in the query: " + statement.text());
        }
        return model;
    }

    boolean isSet(Object key) {
        return values.containsKey(model(key).key());
    }

    /**
     * What one was set to.
     *
     * @throws IllegalStateException where it wasn't
     */
    Object value(Object key) {
        ParameterModel model = model(key);
        if (!values.containsKey(key)) {
            throw new IllegalStateException("the parameter " + model.told() + " isn't set");
        }
        return values.get(key);
    }

    /** The name or the number of a parameter object. */
    Object keyOf(Parameter<?> parameter) {
        if (expressions.containsKey(parameter)) {
            return expressions.get(parameter);
        }
        Object key = parameter.getName() != null ? parameter.getName() : parameter.getPosition();
        return model(key).key();
    }

    Set<Parameter<?>> parameters() {
        Set<Parameter<?>> all = new LinkedHashSet<>(expressions.keySet());
        if (!all.isEmpty()) {
            return all;
        }
        statement.parameters().keySet().stream().filter(key -> !(key instanceof Built.Key))
                .forEach(key -> all.add(parameter(key)));
        return all;
    }

    Parameter<?> parameter(Object key) {
        for (Map.Entry<Parameter<?>, Object> expression : expressions.entrySet()) {
            if (expression.getValue().equals(key)) {
                return expression.getKey();
            }
        }
        return described(key, model(key).type());
    }

    /**
     * A parameter of a type.
     *
     * @throws IllegalArgumentException where it isn't assignable to the type
     */
    <T> Parameter<T> parameter(Object key, Class<T> type) {
        Parameter<?> known = parameter(key);
        Class<?> has = known.getParameterType() == null ? Object.class : Classes.boxed(known.getParameterType());
        if (!Classes.boxed(type).isAssignableFrom(has) && has != Object.class) {
            throw new IllegalArgumentException("the parameter " + model(key).told() + " is of " + has.getName()
                    + ", and no " + type.getName());
        }
        if (expressions.containsKey(known)) {
            @SuppressWarnings("unchecked")
            Parameter<T> expression = (Parameter<T>) known;
            return expression;
        }
        return described(key, type);
    }

    private static <T> Parameter<T> described(Object key, Class<T> type) {
        return new Described<>(key instanceof String name ? name : null, key instanceof Integer place ? place : null,
                type);
    }

    /** What of a point of time a TemporalType keeps, in the zone of the JVM. */
    static Object truncated(Date value, TemporalType type) {
        return value == null ? null : truncated((LocalDateTime) Conversions.local(new Date(value.getTime())), type,
                value);
    }

    /** What of a point of time a TemporalType keeps, in the zone of the JVM. */
    static Object truncated(Calendar value, TemporalType type) {
        return value == null ? null : truncated((LocalDateTime) Conversions.local(value), type, value);
    }

    private static Object truncated(LocalDateTime time, TemporalType type, Object whole) {
        return switch (type) {
            case DATE -> time.toLocalDate();
            case TIME -> time.toLocalTime();
            case TIMESTAMP -> whole;
        };
    }
}
