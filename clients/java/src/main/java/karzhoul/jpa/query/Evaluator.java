package karzhoul.jpa.query;

import jakarta.persistence.PersistenceException;
import java.math.BigDecimal;
import java.math.BigInteger;
import java.util.ArrayList;
import java.util.HashMap;
import java.util.HashSet;
import java.util.IdentityHashMap;
import java.util.List;
import java.util.Map;
import java.util.Set;
import karzhoul.jpa.model.EntityModel;
import karzhoul.jpa.model.NamedMembers;
import karzhoul.jpa.query.Tree.Aggregate;
import karzhoul.jpa.query.Tree.Arithmetic;
import karzhoul.jpa.query.Tree.Average;
import karzhoul.jpa.query.Tree.Call;
import karzhoul.jpa.query.Tree.Case;
import karzhoul.jpa.query.Tree.Condition;
import karzhoul.jpa.query.Tree.Embedded;
import karzhoul.jpa.query.Tree.EntityName;
import karzhoul.jpa.query.Tree.Now;
import karzhoul.jpa.query.Tree.Reference;
import karzhoul.jpa.query.Tree.Scalar;
import karzhoul.jpa.query.Tree.Select;
import karzhoul.jpa.query.Tree.Signed;
import karzhoul.jpa.query.Tree.TypeOf;
import karzhoul.jpa.query.Tree.Value;
import karzhoul.jpa.query.Tree.When;

/** Computes over the program's rows what the program doesn't: values (chapter 4.7) and aggregates (chapter 4.8.5). */
final class Evaluator {
    /** A row of the program, or a group of them with its first; a group of nothing has no row. */
    record Frame(Object[] row, List<Object[]> group) {}

    /** The most answers of blocks that are held; then they are asked for again. */
    private static final int MOST_HELD = 100_000;

    private final Leaves leaves;
    private final Binding binding;
    private final Truths truths = new Truths(this);
    private final Map<Asked, List<SelectPlan.Answer>> answers = new HashMap<>();
    private int held;

    /** A block that was asked for what it names from outside. */
    private record Asked(SelectPlan plan, List<Object> outside, boolean isAny) {
        @Override
        public boolean equals(Object other) {
            return other instanceof Asked that && plan == that.plan && isAny == that.isAny
                    && outside.equals(that.outside);
        }

        @Override
        public int hashCode() {
            return 31 * System.identityHashCode(plan) + outside.hashCode();
        }
    }

    Evaluator(Leaves leaves, Binding binding) {
        this.leaves = leaves;
        this.binding = binding;
    }

    Binding binding() {
        return binding;
    }

    /** Whether a condition is true. */
    boolean isTrue(Condition condition, Frame frame) {
        return Boolean.TRUE.equals(truths.of(condition, frame));
    }

    /** What a row has in the column of a value; null without a row. */
    Object raw(int place, Frame frame) {
        return frame.row() == null ? null : frame.row()[place];
    }

    /** The unit of a value that is a column; else null. */
    Unit unit(Value value) {
        Integer place = leaves.place(value);
        return place == null ? null : leaves.columns().get(place).unit();
    }

    /** What a row has of a value that is a column. */
    Object column(Value value, Frame frame) {
        return raw(leaves.place(value), frame);
    }

    /** By what a value is sorted: what the program has of it, where it is a column. */
    Object order(Value value, Frame frame) {
        return unit(value) == null ? value(value, frame) : column(value, frame);
    }

    Object value(Value value, Frame frame) {
        Integer place = leaves.place(value);
        if (place != null) {
            Leaves.Column column = leaves.columns().get(place);
            return frame.row() == null ? null : decoded(column, frame.row()[place]);
        }
        List<Value> key = leaves.key(value);
        if (value instanceof Embedded whole) {
            return embedded(whole, frame);
        } else if (key != null) {
            List<Object> columns = key.stream().map(part -> raw(leaves.place(part), frame)).toList();
            return columns.contains(null) ? null
                    : ((Tree.Reference) value).entity().key().fromColumns(columns);
        }
        if (value instanceof Now now) {
            return binding.clock.value(now.kind());
        }
        return Binding.isConstant(value) ? binding.constant(value) : computed(value, frame);
    }

    /** An embedded object, as one that no entity holds (chapter 4.8.4); null where all that it has is. */
    private Object embedded(Embedded whole, Frame frame) {
        EntityModel entity = whole.parts().get(0).entity();
        while (entity.isAbstract()) {
            entity = entity.subEntities().get(0);
        }
        Object at = entity.newInstance();
        boolean isNone = true;
        for (Reference part : whole.parts()) {
            Object value = value(part, frame);
            isNone &= value == null;
            part.attribute().set(at, value);
        }
        if (entity.rowsOf().isPresent()) {
            return isNone ? null : entity.rowsOf().get().element(at);
        }
        for (String name : whole.names()) {
            at = at == null ? null : NamedMembers.value(at, name).orElse(null);
        }
        return at;
    }

    static Object decoded(Leaves.Column column, Object raw) {
        try {
            return column.unit().decoded(raw, column.type());
        } catch (ArithmeticException e) {
            throw new PersistenceException("Overflow: " + raw + " is no " + column.type().java().getSimpleName(), e);
        }
    }

    private Object computed(Value value, Frame frame) {
        if (value instanceof Signed of) {
            Number number = (Number) value(of.value(), frame);
            return number == null ? null : Numbers.signed(of.isMinus(), number);
        } else if (value instanceof Arithmetic of) {
            Number left = (Number) value(of.left(), frame);
            Number right = (Number) value(of.right(), frame);
            return left == null || right == null ? null : Numbers.arithmetic(of.sign(), left, right);
        } else if (value instanceof Call of) {
            List<Object> given = new ArrayList<>();
            of.arguments().forEach(argument -> given.add(value(argument, frame)));
            return of.function() == Function.COALESCE ? joined(of, Functions.call(of.function(), given))
                    : Functions.call(of.function(), given);
        } else if (value instanceof Case of) {
            return joined(of, choice(of, frame));
        } else if (value instanceof Average of) {
            Number count = (Number) value(of.count(), frame);
            return count == null || count.longValue() == 0 ? null
                    : Numbers.average((Number) value(of.sum(), frame), count.longValue());
        } else if (value instanceof Aggregate of) {
            return aggregate(of, frame);
        } else if (value instanceof TypeOf of) {
            return typeOf(value(of.operand(), frame));
        } else if (value instanceof Scalar of) {
            SelectPlan.Answer one = one(of.select(), frame);
            return one == null ? null : one.value();
        } else if (value instanceof EntityName of) {
            return of.entity().javaClass();
        }
        throw new IllegalStateException("no way to compute " + value);
    }

    /** The number of one branch as one of the type that holds those of all, whichever a row has. */
    private static Object joined(Value of, Object chosen) {
        try {
            return Types.of(of).isNumber() ? Conversions.to(Types.of(of).java(), chosen) : chosen;
        } catch (IllegalArgumentException e) {
            throw new IllegalArgumentException(ValueWriter.told(of) + ": " + e.getMessage(), e);
        }
    }

    private Object choice(Case of, Frame frame) {
        for (When when : of.whens()) {
            boolean isChosen;
            if (when.test() instanceof Condition condition) {
                isChosen = isTrue(condition, frame);
            } else {
                isChosen = Boolean.TRUE.equals(truths.compared("=", of.operand(), (Value) when.test(), frame));
            }
            if (isChosen) {
                return value(when.then(), frame);
            }
        }
        return value(of.otherwise(), frame);
    }

    private Class<?> typeOf(Object entity) {
        if (entity == null) {
            return null;
        }
        Object instance = entity instanceof Asking.Ref ref ? binding.asking.instances(List.of(ref)).get(0) : entity;
        return binding.asking.unit().of(instance.getClass()).javaClass();
    }

    // ---- blocks that are asked for each row, once for what they name from outside

    /** What a block answers beside a row; one answer at most, where it is asked whether there is any. */
    List<SelectPlan.Answer> answers(Select select, Frame frame, boolean isAny) {
        RowBlocks.Block block = leaves.block(select);
        Map<Reference, Object> row = new IdentityHashMap<>();
        List<Object> key = new ArrayList<>();
        for (Reference path : block.outside()) {
            Object value = value(path, frame);
            row.put(path, value);
            key.add(key(path, value, frame));
        }
        Asked asked = new Asked(block.plan(), key, isAny);
        List<SelectPlan.Answer> known = answers.get(asked);
        if (known == null) {
            known = block.plan().answers(Binding.ofRow(binding, row), isAny ? 1 : null);
            held += known.size() + 1;
            if (held > MOST_HELD) {
                answers.clear();
                held = known.size() + 1;
            }
            answers.put(asked, known);
        }
        return known;
    }

    /** The unit of what a block answers, where it is a column; else null. */
    Unit unit(Select select) {
        return leaves.block(select).plan().unit();
    }

    /** The one row of a block; null of none. */
    SelectPlan.Answer one(Select select, Frame frame) {
        List<SelectPlan.Answer> found = answers(select, frame, false);
        if (found.size() > 1) {
            throw SelectPlan.several();
        }
        return found.isEmpty() ? null : found.get(0);
    }

    // ---- aggregates

    private Object aggregate(Aggregate of, Frame frame) {
        List<Object> values = new ArrayList<>();
        Set<Object> seen = new HashSet<>();
        for (Object[] row : frame.group()) {
            Frame one = new Frame(row, List.of());
            Object value = value(of.operand(), one);
            if (value != null && (!of.isDistinct() || seen.add(key(of.operand(), value, one)))) {
                values.add(value);
            }
        }
        if (of.kind() == Aggregate.Kind.COUNT) {
            return (long) values.size();
        }
        if (values.isEmpty()) {
            return null;
        }
        return of.kind() == Aggregate.Kind.SUM ? sum(values, Types.of(of)) : extreme(of, frame);
    }

    /** MIN or MAX of a group that has values. */
    private Object extreme(Aggregate of, Frame frame) {
        Frame best = null;
        for (Object[] row : frame.group()) {
            Frame one = new Frame(row, List.of());
            Object order = order(of.operand(), one);
            if (order != null) {
                int found = best == null ? 0 : Comparing.compare(order, order(of.operand(), best));
                if (best == null || (of.kind() == Aggregate.Kind.MIN ? found < 0 : found > 0)) {
                    best = one;
                }
            }
        }
        return value(of.operand(), best);
    }

    /** What equal values have in common: where it is a column, what the program has. */
    Object key(Value value, Object computed, Frame frame) {
        List<Value> parts = leaves.key(value);
        if (parts != null) {
            List<Object> keys = new ArrayList<>();
            parts.forEach(part -> keys.add(key(part, null, frame)));
            return keys;
        }
        Integer place = leaves.place(value);
        Object key = place == null ? computed : raw(place, frame);
        return key instanceof Asking.Ref ref ? (Object) ref.number() : Comparing.key(key);
    }

    private static Object sum(List<Object> values, Type type) {
        if (type.java() == Double.class) {
            double sum = 0;
            for (Object value : values) {
                sum += ((Number) value).doubleValue();
            }
            return sum;
        }
        BigDecimal sum = BigDecimal.ZERO;
        for (Object value : values) {
            sum = sum.add(Conversions.decimal((Number) value));
        }
        if (type.java() == BigDecimal.class) {
            return sum;
        }
        BigInteger whole = sum.toBigIntegerExact();
        if (type.java() == BigInteger.class) {
            return whole;
        }
        try {
            return whole.longValueExact();
        } catch (ArithmeticException e) {
            throw new PersistenceException("Overflow: the sum " + whole + " is no Long", e);
        }
    }
}
