package karzhoul.jpa.query;

import java.math.BigDecimal;
import java.util.ArrayList;
import java.util.List;
import karzhoul.jpa.model.Codec;
import karzhoul.jpa.query.Tree.Aggregate;
import karzhoul.jpa.query.Tree.Arithmetic;
import karzhoul.jpa.query.Tree.Call;
import karzhoul.jpa.query.Tree.Case;
import karzhoul.jpa.query.Tree.Literal;
import karzhoul.jpa.query.Tree.Now;
import karzhoul.jpa.query.Tree.Parameter;
import karzhoul.jpa.query.Tree.Reference;
import karzhoul.jpa.query.Tree.Signed;
import karzhoul.jpa.query.Tree.Value;
import karzhoul.jpa.query.Unit.Whole;

/** Writes values in the program's language. */
final class ValueWriter {
    /** The most decimal places that fit into 64 bits. */
    private static final int MOST_PLACES = 18;

    /**
     * A value as it is written.
     *
     * @param rank 0 of a sum, 1 of a product, 2 of what needs no parentheses
     */
    record Written(Text text, Unit unit, int rank) {
        Text within(int least) {
            return rank >= least ? text : Text.of("(").add(text).add(")");
        }
    }

    /** What a parameter is written by: how many decimal places it is to have, and whether it stands among decimals. */
    private record Beside(int places, boolean isDecimal) {
        static final Beside NOTHING = new Beside(0, false);

        static Beside of(Unit unit) {
            return unit instanceof Whole whole && whole.scale() > 0 ? new Beside(whole.scale(), true) : NOTHING;
        }

        /** Of an operand, beside another one of so many places: a product has those of both together. */
        Beside operand(Arithmetic of, int other) {
            return new Beside(of.sign() == '*' ? Math.max(0, places - other) : Math.max(places, other),
                    isDecimal || Types.of(of).java() == BigDecimal.class);
        }
    }

    private final Names names;
    private final boolean isExact;
    private CaseWriter cases;

    /** One that takes parameters among decimals as such of so many places, or none, where the door is to compute exactly. */
    ValueWriter(Names names, boolean isExact) {
        this.names = names;
        this.isExact = isExact;
    }

    /** Writes CASE by this. */
    void writesBy(CaseWriter writer) {
        cases = writer;
    }

    /**
     * A value that has a unit by itself: no literal, parameter or the like alone.
     *
     * @throws NotKept where the program can't say it
     */
    Written value(Value value) {
        return value(value, Beside.NOTHING);
    }

    private Written value(Value value, Beside beside) {
        if (value instanceof Reference reference) {
            return new Written(Text.of(path(reference)), unit(reference), 2);
        } else if (value instanceof Signed signed) {
            Written of = whole(signed.value(), beside);
            return new Written(Text.of(signed.isMinus() ? "-" : "+").add(of.within(2)), of.unit(), 1);
        } else if (value instanceof Arithmetic arithmetic) {
            return arithmetic(arithmetic, beside);
        } else if (value instanceof Call call) {
            return call(call, beside);
        } else if (value instanceof Aggregate aggregate) {
            return aggregate(aggregate);
        } else if (value instanceof Case choice) {
            return cases.written(choice, beside.isDecimal() ? new Whole(beside.places()) : null);
        } else if (Binding.isConstant(value)) {
            return constant(value, unitOf(value));
        }
        throw new NotKept(value.at(), told(value) + " isn't among what the program computes");
    }

    /** The same beside what has this unit. */
    Written beside(Value value, Unit unit) {
        return value instanceof Case choice ? cases.written(choice, unit) : value(value, Beside.of(unit));
    }

    /** A value in this unit: a constant in any unit that has its equal. */
    Written in(Value value, Unit unit) {
        if (Binding.isConstant(value)) {
            return constant(value, unit);
        }
        Written written = beside(value, unit);
        if (unit instanceof Whole wanted && written.unit() instanceof Whole has) {
            if (has.scale() > wanted.scale()) {
                throw new NotKept(value.at(), told(value) + " has " + has.scale()
                        + " decimal places, and what it stands beside " + wanted.scale());
            }
            return scaled(written, wanted.scale());
        }
        if (!written.unit().isSame(unit)) {
            String has = told(written.unit());
            String other = told(unit);
            throw new NotKept(value.at(), told(value) + " is " + has + ", and what it stands beside " + other
                    + (has.equals(other) ? " that is kept in another way" : ""));
        }
        return written;
    }

    /** The unit that a constant has where nothing stands beside it. */
    private static Unit unitOf(Value value) {
        if (value instanceof Tree.Outer outer) {
            return outer.path().isWholeKey() ? noUnit(value) : unit(outer.path());
        }
        if (value instanceof Literal literal && literal.value() instanceof Number number) {
            BigDecimal decimal = Conversions.decimal(number);
            return Types.isExact(Types.of(value)) && decimal.scale() <= 0 ? Unit.INTEGERS : noUnit(value);
        }
        return value instanceof Literal literal && literal.value() instanceof String ? Unit.TEXTS : noUnit(value);
    }

    private static Unit noUnit(Value value) {
        throw new NotKept(value.at(), told(value) + " stands beside nothing that tells how it is kept");
    }

    static String told(Value value) {
        if (value instanceof Call call) {
            return call.function().name();
        }
        if (value instanceof Arithmetic arithmetic) {
            return "\"" + arithmetic.sign() + "\"";
        }
        return value instanceof Case ? "CASE" : value instanceof Aggregate aggregate ? aggregate.kind().name()
                : value instanceof Tree.Scalar ? "this subquery" : value instanceof Parameter ? "the parameter " + value
                        : value instanceof Reference ? "\"" + value + "\"" : "this value";
    }

    private static String told(Unit unit) {
        if (unit instanceof Whole whole) {
            return whole.scale() == 0 ? "a whole number" : "a decimal of " + whole.scale() + " places";
        }
        return unit instanceof Unit.Kept kept ? "a value of " + kept.codec().javaType().getSimpleName()
                : unit instanceof Unit.Chars ? "a text" : "an entity";
    }

    // ---- paths

    /** A path word for word. */
    String path(Reference reference) {
        StringBuilder path = new StringBuilder(names.of(reference.variable()));
        reference.steps().forEach(step -> path.append('.').append(step.member()));
        if (reference.isWholeKey()) {
            throw new NotKept(reference.at(), "the embedded key \"" + reference + "\" as a whole isn't among what the "
                    + "program compares; name its parts");
        }
        if (reference.attribute() != null) {
            path.append('.').append(reference.attribute().member());
        }
        return path.toString();
    }

    private static Unit unit(Reference reference) {
        return reference.attribute() == null ? Unit.THINGS : Unit.of(reference.attribute().codec());
    }

    // ---- arithmetic

    /** A value that is computed with: a whole number of some decimal places; a parameter has those that what is beside it tells. */
    private Written whole(Value value, Beside beside) {
        if (value instanceof Literal literal && literal.value() instanceof Number && Types.isExact(Types.of(value))) {
            return constant(value, new Whole(places(literal)));
        }
        if (Binding.isConstant(value)) {
            Type type = Types.of(value);
            if (type.isKnown() && !Types.isExact(type)) {
                throw new NotKept(value.at(), told(value) + " is a " + type.java().getSimpleName()
                        + ", and the program computes with whole numbers and decimals");
            }
            Unit own = value instanceof Tree.Outer outer ? unit(outer.path()) : null;
            return own instanceof Whole ? constant(value, own, false)
                    : constant(value, new Whole(beside.places()), beside.isDecimal());
        }
        Written written = value(value, beside);
        if (!(written.unit() instanceof Whole)) {
            throw new NotKept(value.at(), told(value) + " is " + told(written.unit())
                    + ", and the program computes with whole numbers and decimals");
        }
        return written;
    }

    private Written arithmetic(Arithmetic arithmetic, Beside beside) {
        if (arithmetic.sign() == '/') {
            throw new NotKept(arithmetic.at(), "\"/\" isn't among what the program computes");
        }
        Written left = whole(arithmetic.left(), beside.operand(arithmetic, places(arithmetic.right())));
        int a = ((Whole) left.unit()).scale();
        Written right = whole(arithmetic.right(), beside.operand(arithmetic, a));
        int b = ((Whole) right.unit()).scale();
        if (arithmetic.sign() == '*') {
            checkPlaces(arithmetic, a + b);
            return new Written(new Text().add(left.within(1)).add(" * ").add(right.within(2)), new Whole(a + b), 1);
        }
        int scale = Math.max(a, b);
        Text text = new Text().add(scaled(arithmetic.left(), left, scale).within(0)).add(" " + arithmetic.sign() + " ")
                .add(scaled(arithmetic.right(), right, scale).within(1));
        return new Written(text, new Whole(scale), 0);
    }

    /** How many decimal places a value has by itself; none where it is no decimal, or takes those of what is beside it. */
    private static int places(Value value) {
        if (value instanceof Reference path) {
            return unit(path) instanceof Whole whole ? whole.scale() : 0;
        } else if (value instanceof Literal literal && literal.value() instanceof Number number
                && Types.isExact(Types.of(value))) {
            return Math.max(0, Conversions.decimal(number).scale());
        } else if (value instanceof Tree.Outer outer) {
            return places(outer.path());
        } else if (value instanceof Signed signed) {
            return places(signed.value());
        } else if (value instanceof Arithmetic of) {
            return of.sign() == '*' ? places(of.left()) + places(of.right())
                    : Math.max(places(of.left()), places(of.right()));
        } else if (value instanceof Aggregate of) {
            return of.kind() == Aggregate.Kind.COUNT ? 0 : places(of.operand());
        }
        return value instanceof Call call ? call.arguments().stream().mapToInt(ValueWriter::places).max().orElse(0) : 0;
    }

    private static void checkPlaces(Value value, int places) {
        if (places > MOST_PLACES) {
            throw new NotKept(value.at(), "a product of " + places + " decimal places doesn't fit into 64 bits");
        }
    }

    private Written scaled(Value value, Written written, int scale) {
        return value instanceof Literal ? constant(value, new Whole(scale)) : scaled(written, scale);
    }

    private static Written scaled(Written written, int scale) {
        int from = ((Whole) written.unit()).scale();
        if (from == scale) {
            return written;
        }
        String factor = BigDecimal.ONE.scaleByPowerOfTen(scale - from).toBigIntegerExact().toString();
        return new Written(new Text().add(written.within(1)).add(" * " + factor), new Whole(scale), 1);
    }

    /** Both in one unit of numbers, the one of more decimal places. */
    static Written[] aligned(Written left, Written right) {
        int scale = Math.max(((Whole) left.unit()).scale(), ((Whole) right.unit()).scale());
        return new Written[] {scaled(left, scale), scaled(right, scale)};
    }

    // ---- functions

    private Written call(Call call, Beside beside) {
        List<Value> given = call.arguments();
        if (!call.function().isKept()) {
            throw new NotKept(call.at(), call.function() + " isn't among what the program computes");
        }
        return switch (call.function()) {
            case SIZE -> new Written(Text.of("SIZE(" + path((Reference) given.get(0)) + ")"), Unit.INTEGERS, 2);
            case ABS -> {
                Written of = whole(given.get(0), beside);
                yield new Written(Text.of("ABS(").add(of.text()).add(")"), of.unit(), 2);
            }
            case TRIM -> trimmed(call);
            default -> called(call, Grammar.PROGRAM.function(call.function().name()));
        };
    }

    private Written called(Call call, Grammar.Called function) {
        if (call.arguments().size() > function.most()) {
            throw new NotKept(call.at(), call.function() + " of so many values isn't among what the program computes");
        }
        Unit alike = function.kinds().contains("any") ? alike(call) : null;
        List<Text> arguments = new ArrayList<>();
        for (Value argument : call.arguments()) {
            arguments.add(in(argument, unit(function.kind(arguments.size()), alike)).text());
        }
        return new Written(Text.of(call.function() + "(").add(Text.joined(", ", arguments)).add(")"),
                unit(function.result(), alike), 2);
    }

    private static Unit unit(String kind, Unit alike) {
        return switch (kind) {
            case "text" -> Unit.TEXTS;
            case "integer" -> Unit.INTEGERS;
            default -> alike;
        };
    }

    /** The unit of the values of COALESCE and NULLIF. */
    private Unit alike(Call call) {
        for (Value argument : call.arguments()) {
            if (!Binding.isConstant(argument)) {
                return value(argument).unit();
            }
        }
        return noUnit(call);
    }

    /** TRIM, whose words stand before FROM where they say more than blanks of both sides. */
    private Written trimmed(Call call) {
        String side = (String) ((Literal) call.arguments().get(0)).value();
        Value character = call.arguments().get(1);
        if (!Binding.isConstant(character)) {
            throw new NotKept(character.at(), "TRIM takes off a literal or a parameter");
        }
        boolean isBlank = character instanceof Literal literal && " ".equals(literal.value());
        Text text = Text.of("TRIM(").add(side.equals("BOTH") && isBlank ? "" : side + " ");
        if (!isBlank) {
            text.add((binding, to) -> Functions.checkOne("TRIM takes off", binding.constant(character)))
                    .add(constant(character, Unit.TEXTS).text()).add(" ");
        }
        text.add(side.equals("BOTH") && isBlank ? "" : "FROM ").add(in(call.arguments().get(2), Unit.TEXTS).text()).add(")");
        return new Written(text, Unit.TEXTS, 2);
    }

    private Written aggregate(Aggregate aggregate) {
        if (!Grammar.PROGRAM.hasAggregate(aggregate.kind().name())) {
            throw new NotKept(aggregate.at(), aggregate.kind() + " isn't among what the program computes");
        }
        boolean isCount = aggregate.kind() == Aggregate.Kind.COUNT;
        Written operand = aggregate.kind() == Aggregate.Kind.SUM ? whole(aggregate.operand(), Beside.NOTHING)
                : value(aggregate.operand());
        Text text = Text.of(aggregate.kind() + (aggregate.isDistinct() ? "(DISTINCT "
                : "(")).add(operand.text()).add(")");
        return new Written(text, isCount ? Unit.INTEGERS : operand.unit(), 2);
    }

    // ---- constants

    /** A constant in a unit; a literal is judged at once. */
    private Written constant(Value value, Unit unit) {
        return constant(value, unit, unit instanceof Whole whole && whole.scale() > 0);
    }

    private Written constant(Value value, Unit unit, boolean isDecimal) {
        if (unit instanceof Unit.Thing) {
            if (!(value instanceof Parameter || value instanceof Tree.Asked || value instanceof Tree.Outer)) {
                throw new NotKept(value.at(), "an entity is compared with entities and parameters");
            }
            return new Written(new Text().add((binding, text) -> text.append(
                    binding.parameter(binding.thing(value, binding.constant(value))))), unit, 2);
        }
        if (value instanceof Now now && unit instanceof Unit.Kept kept) {
            checkTime(now, kept.codec());
        }
        if (value instanceof Literal literal) {
            Object column = column(literal, unit);
            boolean isNegative = column instanceof Long number && number < 0;
            return new Written(new Text().add((binding, text) -> text.append(binding.written(column))), unit,
                    isNegative ? 1 : 2);
        }
        if (isExact && isDecimal) {
            throw new NotKept(value.at(), told(value) + " has another number of decimal places than what is beside it");
        }
        return new Written(new Text().add((binding, text) -> text.append(
                binding.parameter(column(binding, value, unit, isDecimal)))), unit, 2);
    }

    private static Object column(Literal literal, Unit unit) {
        try {
            return column(null, literal, literal.value(), unit, false);
        } catch (RuntimeException e) {
            throw new NotKept(literal.at(), e.getMessage());
        }
    }

    private static Object column(Binding binding, Value value, Unit unit, boolean isDecimal) {
        return column(binding, value, binding.constant(value), unit, isDecimal);
    }

    private static Object column(Binding binding, Value source, Object value, Unit unit, boolean isDecimal) {
        if (value == null) {
            return null;
        }
        if (unit instanceof Unit.Kept kept) {
            return binding == null ? kept.codec().toColumn(Conversions.to(kept.codec().javaType(), value))
                    : binding.kept(kept.codec(), source, value);
        }
        if (unit instanceof Whole whole) {
            return binding == null ? Decimals.exact(value, whole.scale())
                    : binding.exact(source, value, whole.scale(), isDecimal);
        }
        if (value instanceof String || value instanceof Character) {
            return Binding.text(source, value);
        }
        throw new IllegalArgumentException("a text is expected, and " + value + " is of " + value.getClass().getName());
    }

    private static void checkTime(Now now, Codec codec) {
        boolean isDay = codec.meaning().equals("day");
        boolean isTimeOfDay = codec.meaning().contains("of day");
        boolean fits = switch (now.kind()) {
            case CURRENT_DATE, LOCAL_DATE -> !isTimeOfDay;
            case CURRENT_TIME, LOCAL_TIME -> isTimeOfDay;
            default -> !isDay && !isTimeOfDay;
        };
        if (!fits) {
            throw new NotKept(now.at(), now.kind() + " stands beside a " + codec.javaType().getSimpleName()
                    + " of another precision");
        }
    }
}
