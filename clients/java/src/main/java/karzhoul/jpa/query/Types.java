package karzhoul.jpa.query;

import java.math.BigDecimal;
import java.util.List;
import karzhoul.jpa.query.Tree.Aggregate;
import karzhoul.jpa.query.Tree.Arithmetic;
import karzhoul.jpa.query.Tree.Asked;
import karzhoul.jpa.query.Tree.Average;
import karzhoul.jpa.query.Tree.Call;
import karzhoul.jpa.query.Tree.Case;
import karzhoul.jpa.query.Tree.Downcast;
import karzhoul.jpa.query.Tree.Embedded;
import karzhoul.jpa.query.Tree.EntityName;
import karzhoul.jpa.query.Tree.Item;
import karzhoul.jpa.query.Tree.Literal;
import karzhoul.jpa.query.Tree.Now;
import karzhoul.jpa.query.Tree.Outer;
import karzhoul.jpa.query.Tree.Reference;
import karzhoul.jpa.query.Tree.Scalar;
import karzhoul.jpa.query.Tree.Signed;
import karzhoul.jpa.query.Tree.TypeOf;
import karzhoul.jpa.query.Tree.Value;
import karzhoul.jpa.query.Tree.When;

/** The type of a value, from its parts (chapters 4.7 and 4.8.6). */
final class Types {
    private Types() {}

    static Type of(Value value) {
        if (value instanceof Reference reference) {
            return ofPath(reference);
        } else if (value instanceof Literal literal) {
            return ofLiteral(literal.value());
        } else if (value instanceof EntityName || value instanceof TypeOf) {
            return Type.CLASS;
        } else if (value instanceof Signed signed) {
            return Type.promoted(of(signed.value()), Type.INTEGER);
        } else if (value instanceof Arithmetic arithmetic) {
            return Type.promoted(of(arithmetic.left()), of(arithmetic.right()));
        } else if (value instanceof Call call) {
            return ofCall(call);
        } else if (value instanceof Aggregate aggregate) {
            return ofAggregate(aggregate);
        } else if (value instanceof Case choice) {
            Type type = of(choice.otherwise());
            for (When when : choice.whens()) {
                type = Type.joined(type, of(when.then()));
            }
            return type;
        } else if (value instanceof Scalar scalar) {
            return of(scalar.select().items().get(0));
        } else if (value instanceof Asked asked) {
            return of(asked.select().items().get(0));
        }
        if (value instanceof Outer outer) {
            return of(outer.path());
        }
        if (value instanceof Embedded embedded) {
            return new Type(Type.Kind.OTHER, embedded.java(), null);
        }
        if (value instanceof Downcast downcast) {
            return of(downcast.path());
        }
        if (value instanceof Average) {
            return Type.DOUBLE;
        }
        return value instanceof Now now ? Type.of(Clock.typeOf(now.kind())) : Type.UNKNOWN;
    }

    private static Type ofLiteral(Object value) {
        if (value == null) {
            return Type.UNKNOWN;
        }
        return Type.of(value instanceof Enum<?> constant ? constant.getDeclaringClass() : value.getClass());
    }

    static Type of(Item item) {
        return of(item.value());
    }

    private static Type ofPath(Reference reference) {
        if (reference.attribute() != null) {
            return Type.of(reference.attribute().codec().javaType());
        }
        return reference.isWholeKey() ? Type.of(reference.entity().key().javaClass()) : Type.of(reference.entity());
    }

    private static Type ofCall(Call call) {
        List<Value> arguments = call.arguments();
        return switch (call.function()) {
            case LENGTH, LOCATE, SIZE, SIGN -> Type.INTEGER;
            case MOD -> Type.INTEGER;
            case CONCAT, SUBSTRING, UPPER, LOWER, TRIM -> Type.STRING;
            case SQRT, EXP, LN, POWER -> Type.DOUBLE;
            case ABS, CEILING, FLOOR, ROUND, NULLIF -> of(arguments.get(0));
            case COALESCE -> arguments.stream().map(Types::of).reduce(Type.UNKNOWN, Type::joined);
            case EXTRACT -> Type.of(Clock.typeOfField((String) ((Literal) arguments.get(0)).value()));
        };
    }

    private static Type ofAggregate(Aggregate aggregate) {
        Type operand = of(aggregate.operand());
        return switch (aggregate.kind()) {
            case COUNT -> Type.LONG;
            case AVG -> Type.DOUBLE;
            case SUM -> operand.summed();
            case MIN, MAX -> operand;
        };
    }

    /** Whether arithmetic with values of this type is that of decimals or whole numbers, and not of floating point. */
    static boolean isExact(Type type) {
        return type.isNumber() && type.java() != Double.class && type.java() != Float.class
                || type.java() == BigDecimal.class;
    }
}
