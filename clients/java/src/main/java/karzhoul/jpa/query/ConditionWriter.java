package karzhoul.jpa.query;

import java.math.BigDecimal;
import java.util.ArrayList;
import java.util.Arrays;
import java.util.Collection;
import java.util.Collections;
import java.util.LinkedHashSet;
import java.util.List;
import java.util.Set;
import karzhoul.jpa.model.EntityModel;
import karzhoul.jpa.model.UnitModel;
import karzhoul.jpa.query.Tree.Always;
import karzhoul.jpa.query.Tree.And;
import karzhoul.jpa.query.Tree.Compare;
import karzhoul.jpa.query.Tree.Condition;
import karzhoul.jpa.query.Tree.EntityName;
import karzhoul.jpa.query.Tree.Exists;
import karzhoul.jpa.query.Tree.In;
import karzhoul.jpa.query.Tree.InParameter;
import karzhoul.jpa.query.Tree.IsEmpty;
import karzhoul.jpa.query.Tree.IsNull;
import karzhoul.jpa.query.Tree.Like;
import karzhoul.jpa.query.Tree.Literal;
import karzhoul.jpa.query.Tree.Member;
import karzhoul.jpa.query.Tree.Or;
import karzhoul.jpa.query.Tree.Parameter;
import karzhoul.jpa.query.Tree.Reference;
import karzhoul.jpa.query.Tree.TypeIs;
import karzhoul.jpa.query.Tree.Value;
import karzhoul.jpa.query.Unit.Whole;
import karzhoul.jpa.query.ValueWriter.Written;

/** Writes conditions that have passed the lowering steps, in the program's language. */
final class ConditionWriter {
    private final UnitModel unit;
    private final ValueWriter values;
    private final BlockWriter blocks;

    ConditionWriter(UnitModel unit, ValueWriter values, BlockWriter blocks) {
        this.unit = unit;
        this.values = values;
        this.blocks = blocks;
    }

    /**
     * A condition.
     *
     * @throws NotKept where the program can't say it
     */
    Text condition(Condition condition) {
        if (condition instanceof Or or) {
            return Text.of("(").add(Text.joined(" OR ", or.parts().stream().map(this::condition).toList())).add(")");
        } else if (condition instanceof And and) {
            return Text.joined(" AND ", and.parts().stream().map(this::condition).toList());
        } else if (condition instanceof Compare compare) {
            return compared(compare);
        } else if (condition instanceof In in) {
            return among(in);
        } else if (condition instanceof InParameter in) {
            return amongAll(in);
        } else if (condition instanceof Like like) {
            return like(like);
        } else if (condition instanceof IsNull isNull) {
            return isNull(isNull);
        } else if (condition instanceof IsEmpty isEmpty) {
            return Text.of(values.path((Reference) isEmpty.path()) + (isEmpty.isNot() ? " IS NOT EMPTY" : " IS EMPTY"));
        } else if (condition instanceof Member member) {
            return Text.of("").add(values.in(member.value(), Unit.THINGS).within(0))
                    .add(member.isNot() ? " NOT MEMBER OF " : " MEMBER OF ")
                    .add(values.path((Reference) member.path()));
        } else if (condition instanceof Exists exists) {
            return Text.of(exists.isNot() ? "NOT EXISTS (" : "EXISTS (").add(blocks.block(exists.select())).add(")");
        } else if (condition instanceof TypeIs is) {
            return typeIs(is);
        } else if (condition instanceof Always always) {
            return Text.of(always.isTrue() ? "1 = 1" : "1 = 0");
        }
        throw new NotKept(condition.at(), "this condition isn't among what the program decides");
    }

    // ---- comparisons

    private Text compared(Compare compare) {
        boolean isLeft = Binding.isConstant(compare.left());
        boolean isRight = Binding.isConstant(compare.right());
        if (!isRight && (isLeft || Leaves.isFixed(compare.left()) && !Leaves.isFixed(compare.right()))) {
            return compared(new Compare(compare.at(), turned(compare.sign()), compare.right(), compare.left()));
        }
        Written left = isLeft && isRight ? firstOfTwo(compare) : values.value(compare.left());
        if (left.unit() instanceof Whole whole && isRight) {
            return bounded(compare, left, whole);
        }
        Written right = isRight ? values.in(compare.right(), left.unit()) : values.beside(compare.right(), left.unit());
        if (left.unit() instanceof Whole && right.unit() instanceof Whole) {
            Written[] both = ValueWriter.aligned(left, right);
            left = both[0];
            right = both[1];
        } else if (!left.unit().isSame(right.unit())) {
            throw new NotKept(compare.at(), "values that are kept in different ways are compared");
        }
        return new Text().add(left.within(0)).add(" " + compare.sign() + " ").add(right.within(0));
    }

    /** Of two constants the left one, by the unit of that which has one. */
    private Written firstOfTwo(Compare compare) {
        if (!(compare.left() instanceof Literal) && compare.right() instanceof Literal) {
            return values.in(compare.left(), values.value(compare.right()).unit());
        }
        return values.value(compare.left());
    }

    /** The other sign for sides that have changed their places. */
    static String turned(String sign) {
        return switch (sign) {
            case "<" -> ">";
            case "<=" -> ">=";
            case ">" -> "<";
            case ">=" -> "<=";
            default -> sign;
        };
    }

    /** A whole number compared with a constant, which may lie between two of them. */
    private Text bounded(Compare compare, Written left, Whole whole) {
        Value right = compare.right();
        if (right instanceof Literal literal) {
            Decimals.decimal(literal.value());
        }
        String sign = compare.sign();
        Text path = left.within(0);
        return new Text().add((binding, text) -> {
            Object value = binding.constant(right);
            String written = path.written(binding);
            if (value == null) {
                text.append(written).append(' ').append(sign).append(' ').append(binding.parameter(null));
                return;
            }
            BigDecimal number = number(right, value);
            if (sign.equals("=") || sign.equals("<>")) {
                text.append(equated(binding, written, sign, number, whole.scale()));
            } else {
                text.append(ordered(binding, written, sign, number, whole.scale()));
            }
        });
    }

    private static BigDecimal number(Value source, Object value) {
        try {
            return Decimals.decimal(value);
        } catch (IllegalArgumentException e) {
            throw new IllegalArgumentException((source instanceof Parameter ? "the parameter " + source + ": " : "")
                    + e.getMessage(), e);
        }
    }

    private static String equated(Binding binding, String left, String sign, BigDecimal number, int scale) {
        if (Decimals.isExact(number, scale)) {
            return left + " " + sign + " " + binding.written(Decimals.exact(number, scale));
        }
        return sign.equals("=") ? never(left) : left + " IS NOT NULL";
    }

    private static String ordered(Binding binding, String left, String sign, BigDecimal number, int scale) {
        Long bound = Decimals.bound(number, scale, sign);
        if (bound != null) {
            return left + " " + sign + " " + binding.written(bound);
        }
        boolean isLess = sign.startsWith("<");
        return isLess == number.signum() > 0 ? left + " IS NOT NULL" : never(left);
    }

    /** What is never true, and names the path, since a null link on it leaves the row out. */
    private static String never(String value) {
        return "(" + value + " IS NULL AND " + value + " IS NOT NULL)";
    }

    // ---- IN

    private Text among(In in) {
        Written value = values.value(in.value());
        List<Text> all = new ArrayList<>();
        boolean isKnown = true;
        for (Value item : in.values()) {
            if (!(value.unit() instanceof Whole whole) || !Binding.isConstant(item)) {
                all.add(values.in(item, value.unit()).within(0));
            } else if (!(item instanceof Literal literal)) {
                isKnown = false;
                all.add(listed(item, whole));
            } else if (Decimals.isExact(Decimals.decimal(literal.value()), whole.scale())) {
                all.add(values.in(item, whole).within(0));
            }
        }
        Text left = value.within(0);
        if (isKnown && !all.isEmpty()) {
            return new Text().add(left).add(in.isNot() ? " NOT IN (" : " IN (").add(Text.joined(", ", all)).add(")");
        }
        return new Text().add((binding, out) -> {
            String written = left.written(binding);
            String items = String.join(", ", all.stream().map(item -> item.written(binding))
                    .filter(item -> !item.isEmpty()).toList());
            out.append(!items.isEmpty() ? written + (in.isNot() ? " NOT IN (" : " IN (") + items + ")"
                    : in.isNot() ? written + " IS NOT NULL" : never(written));
        });
    }

    /** A parameter among the items of IN as a whole number; nothing where it lies between two of them. */
    private static Text listed(Value item, Whole whole) {
        return new Text().add((binding, out) -> {
            Object value = binding.constant(item);
            BigDecimal number = value == null ? null : number(item, value);
            if (number == null || Decimals.isExact(number, whole.scale())) {
                out.append(binding.parameter(number == null ? null : Decimals.exact(number, whole.scale())));
            }
        });
    }

    private Text amongAll(InParameter in) {
        Written value = values.value(in.value());
        Text left = value.within(0);
        return new Text().add((binding, text) -> {
            Set<Object> all = new LinkedHashSet<>();
            boolean isInexact = false;
            for (Object one : list(binding, in.list())) {
                Object column = one == null ? null : listed(binding, in.list(), one, value.unit());
                isInexact |= one != null && column == null;
                if (one == null || column != null) {
                    all.add(column);
                }
            }
            String written = left.written(binding);
            // what is equal to none of them is unknown for null, and NOT IN of nothing is true
            text.append(all.isEmpty() && isInexact && in.isNot() ? written + " IS NOT NULL"
                    : among(binding, written, in.isNot(), all));
        });
    }

    /** IN of a list; of one with more values than the program takes in one, IN of each part. */
    static String among(Binding binding, String written, boolean isNot, Collection<Object> all) {
        List<String> tests = binding.lists(all).stream().map(list -> written + (isNot ? " NOT IN " : " IN ") + list)
                .toList();
        return tests.size() == 1 ? tests.get(0) : "(" + String.join(isNot ? " AND " : " OR ", tests) + ")";
    }

    /** An element of a list as the program has it; null where no value of the unit is equal to it. */
    private static Object listed(Binding binding, Parameter list, Object one, Unit unit) {
        return unit instanceof Unit.Thing ? binding.thing(list, one) : column(binding, list, one, unit);
    }

    /** What the program has of an element, the number of an object; null where no value of the unit is equal to it. */
    static Object column(Binding binding, Value source, Object one, Unit unit) {
        if (unit instanceof Unit.Thing) {
            return binding.thing(source, one).number();
        } else if (unit instanceof Whole whole) {
            BigDecimal number = number(source, one);
            return Decimals.isExact(number, whole.scale()) ? Decimals.exact(number, whole.scale()) : null;
        } else if (unit instanceof Unit.Kept kept) {
            return binding.kept(kept.codec(), source, one);
        } else if (one instanceof String || one instanceof Character) {
            return Binding.text(source, one);
        }
        throw new IllegalArgumentException("the parameter " + source + ": a text is expected, and " + one + " is of "
                + one.getClass().getName());
    }

    /** The elements of a parameter of IN; one that is no collection is one element. */
    static Collection<?> list(Binding binding, Parameter parameter) {
        Object value = binding.constant(parameter);
        if (value instanceof Collection<?> collection) {
            return collection;
        }
        return value instanceof Object[] array ? Arrays.asList(array) : Collections.singletonList(value);
    }

    // ---- the others

    private Text like(Like like) {
        Text text = new Text().add(values.in(like.value(), Unit.TEXTS).within(0))
                .add(like.isNot() ? " NOT LIKE " : " LIKE ")
                .add(values.in(like.pattern(), Unit.TEXTS).within(0));
        Value escape = like.escape();
        if (escape != null) {
            if (!Binding.isConstant(escape)) {
                throw new NotKept(escape.at(), "ESCAPE takes a literal or a parameter");
            }
            text.add((binding, out) -> {
                String one = String.valueOf(binding.constant(escape));
                Functions.checkOne("ESCAPE takes", one);
                out.append(" ESCAPE '").append(one.replace("'", "''")).append('\'');
            });
        }
        return text;
    }

    private Text isNull(IsNull isNull) {
        String rest = isNull.isNot() ? " IS NOT NULL" : " IS NULL";
        Value value = isNull.value();
        if (value instanceof Reference key && key.isWholeKey()) {
            return new Text().add(values.value(new Reference(key.at(), key.variable(), key.steps(),
                    key.entity().key().parts().get(0), false)).within(0)).add(rest);
        }
        if (Binding.isConstant(value)) {
            return new Text().add((binding, text) -> text.append(
                    (binding.constant(value) == null) != isNull.isNot() ? "1 = 1" : "1 = 0"));
        }
        return new Text().add(values.value(value).within(0)).add(rest);
    }

    private Text typeIs(TypeIs is) {
        String variable = values.path((Reference) is.of());
        List<Text> classes = new ArrayList<>();
        for (Value one : is.classes()) {
            classes.add(new Text().add((binding, text) -> text.append(String.join(", ", entities(binding, one)))));
        }
        return Text.of("TYPE(" + variable + ")").add(is.isNot() ? " NOT IN (" : " IN (").add(Text.joined(", ", classes))
                .add(")");
    }

    private List<String> entities(Binding binding, Value value) {
        if (value instanceof EntityName name) {
            return List.of(name.entity().mappedName());
        }
        List<String> names = new ArrayList<>();
        for (Object one : list(binding, (Parameter) value)) {
            if (!(one instanceof Class<?> type)) {
                throw new IllegalArgumentException("the parameter " + value + ": the class of an entity is expected");
            }
            EntityModel entity = unit.of(type);
            names.add(entity.mappedName());
        }
        if (names.isEmpty()) {
            throw new IllegalArgumentException("the parameter " + value + ": a class at least is expected");
        }
        return names;
    }
}
