package karzhoul.jpa.query;

import java.util.ArrayList;
import java.util.Collection;
import java.util.LinkedHashMap;
import java.util.List;
import java.util.Map;
import karzhoul.jpa.model.Attribute;
import karzhoul.jpa.model.UnitModel;
import karzhoul.jpa.query.Tree.Aggregate;
import karzhoul.jpa.query.Tree.Arithmetic;
import karzhoul.jpa.query.Tree.Assignment;
import karzhoul.jpa.query.Tree.Call;
import karzhoul.jpa.query.Tree.Case;
import karzhoul.jpa.query.Tree.Condition;
import karzhoul.jpa.query.Tree.Construct;
import karzhoul.jpa.query.Tree.Delete;
import karzhoul.jpa.query.Tree.Downcast;
import karzhoul.jpa.query.Tree.Embedded;
import karzhoul.jpa.query.Tree.Item;
import karzhoul.jpa.query.Tree.Join;
import karzhoul.jpa.query.Tree.Key;
import karzhoul.jpa.query.Tree.Literal;
import karzhoul.jpa.query.Tree.Parameter;
import karzhoul.jpa.query.Tree.Reference;
import karzhoul.jpa.query.Tree.Scalar;
import karzhoul.jpa.query.Tree.Select;
import karzhoul.jpa.query.Tree.Signed;
import karzhoul.jpa.query.Tree.Source;
import karzhoul.jpa.query.Tree.Statement;
import karzhoul.jpa.query.Tree.TypeOf;
import karzhoul.jpa.query.Tree.Update;
import karzhoul.jpa.query.Tree.Value;
import karzhoul.jpa.query.Tree.When;

/** Judges whether a resolved statement is well typed, and finds the types of its parameters. */
final class Typer {
    private static final Reference NO_PATH = new Reference(0, null, List.of(), null, false);

    final UnitModel unit;
    private final String text;
    private final Map<Object, ParameterModel> parameters = new LinkedHashMap<>();
    private final ConditionTyper conditions = new ConditionTyper(this);

    private Typer(UnitModel unit, String text) {
        this.unit = unit;
        this.text = text;
    }

    /**
     * The parameters of a statement, in the order of the text.
     *
     * @throws QueryFault where the statement isn't well typed
     */
    static Map<Object, ParameterModel> check(UnitModel unit, String text, Statement statement) {
        Typer typer = new Typer(unit, text);
        if (statement instanceof Select select) {
            typer.select(select);
        } else if (statement instanceof Update update) {
            typer.update(update);
        } else {
            typer.filter(((Delete) statement).where());
        }
        typer.checkKeys();
        return typer.parameters;
    }

    private void checkKeys() {
        boolean named = parameters.keySet().stream().anyMatch(String.class::isInstance);
        for (ParameterModel parameter : parameters.values()) {
            if (named && parameter.key() instanceof Integer) {
                throw fault(parameter.at(), "named and positional parameters stand in one query");
            }
        }
    }

    // ---- statements

    private void update(Update update) {
        for (Assignment assignment : update.assignments()) {
            if (!(assignment.path() instanceof Reference path) || path.variable() != update.range().variable()) {
                throw fault(assignment.path().at(), "expected a path of the entity that is updated");
            }
            assignment(path, assignment.value());
        }
        filter(update.where());
    }

    private void assignment(Reference path, Value value) {
        boolean isLink = path.isEntity() && path.steps().size() == 1;
        if (!isLink && (path.attribute() == null || !path.steps().isEmpty())) {
            throw fault(path.at(), "SET takes attributes and links to one entity, and \"" + path + "\" is neither");
        }
        if (path.attribute() != null && path.attribute().role() == Attribute.Role.KEY) {
            throw fault(path.at(), "\"" + path + "\" is part of the key, which SET doesn't change");
        }
        Type given = typed(value, false);
        expect(value, Types.of(path));
        if (!given.goesWith(Types.of(path))) {
            throw fault(value.at(), "\"" + path + "\" is " + Types.of(path).told() + ", and is set to " + given.told());
        }
    }

    void select(Select select) {
        for (Source source : select.sources()) {
            if (source instanceof Join join && join.on() != null) {
                filter(join.on());
            }
        }
        select.items().forEach(item -> item(item));
        filter(select.where());
        for (Value group : select.groups()) {
            if (!(group instanceof Reference reference) || reference.isCollection()) {
                throw fault(group.at(), "GROUP BY takes paths and variables");
            }
        }
        if (select.having() != null) {
            conditions.check(select.having(), true);
        }
        select.order().forEach(key -> key(select, key));
        new Grouping(text).check(select);
    }

    private void item(Item item) {
        if (item.value() instanceof Construct construct) {
            construct.arguments().stream().filter(argument -> !(argument.value() instanceof Embedded))
                    .forEach(argument -> typed(argument.value(), true));
        } else if (!(item.value() instanceof Embedded)) {
            typed(item.value(), true);
        }
    }

    private void key(Select select, Key key) {
        Value value = key.value() instanceof Tree.ItemName name ? select.items().get(name.place()).value()
                : key.value();
        Type type = typed(value, true);
        if (value instanceof Construct) {
            throw fault(key.value().at(), "ORDER BY takes values that have an order, and this is NEW of a class");
        }
        if (!type.isOrdered() && type.kind() != Type.Kind.BOOLEAN && type.kind() != Type.Kind.ENUM) {
            throw fault(key.value().at(), "ORDER BY takes values that have an order, and this is " + type.told());
        }
    }

    private void filter(Condition condition) {
        if (condition != null) {
            conditions.check(condition, false);
        }
    }

    // ---- values

    /** The type of a value, once it is judged. */
    Type typed(Value value, boolean takesAggregates) {
        if (path(value).isCollection()) {
            throw fault(value.at(), "\"" + path(value)
                    + "\" is a collection, which is no value: join it, or ask for SIZE,"
                    + " IS EMPTY or MEMBER OF");
        } else if (value instanceof Embedded element && element.isElement()) {
            throw QueryFault.refusal(text, element.at(), "\"" + element + "\" is an embeddable of a collection, which is served"
                    + " as a whole in SELECT, COUNT and IS NULL; name its attributes, as \"" + element.parts().get(0) + "\"");
        } else if (value instanceof Embedded whole) {
            throw Paths.notWhole(text, whole.at(), String.join(".", whole.names()), whole.parts().get(0).entity(),
                    whole.parts().get(0).attribute());
        } else if (value instanceof Parameter parameter) {
            model(parameter, Type.UNKNOWN, false);
        } else if (value instanceof Signed signed) {
            number(signed.value(), takesAggregates);
        } else if (value instanceof Arithmetic arithmetic) {
            number(arithmetic.left(), takesAggregates);
            number(arithmetic.right(), takesAggregates);
        } else if (value instanceof Call call) {
            call(call, takesAggregates);
        } else if (value instanceof Aggregate aggregate) {
            aggregate(aggregate, takesAggregates);
        } else if (value instanceof Case choice) {
            choice(choice, takesAggregates);
        } else if (value instanceof Scalar scalar) {
            select(scalar.select());
        } else if (value instanceof TypeOf of) {
            typeOf(of);
        }
        return Types.of(value);
    }

    private void typeOf(TypeOf of) {
        if (of.operand() instanceof Parameter parameter) {
            model(parameter, Type.UNKNOWN, false);
        } else if (typed(of.operand(), false).kind() != Type.Kind.ENTITY) {
            throw fault(of.operand().at(), "TYPE takes an entity, and this is " + Types.of(of.operand()).told());
        }
    }

    private void number(Value value, boolean takesAggregates) {
        wanted(value, Type.Kind.NUMBER, Type.LONG, takesAggregates);
    }

    private void wanted(Value value, Type.Kind kind, Type ofParameter, boolean takesAggregates) {
        Type type = typed(value, takesAggregates);
        expect(value, ofParameter);
        if (type.isKnown() && type.kind() != kind) {
            throw fault(value.at(), "expected " + kind.told + ", and this is " + type.told());
        }
    }

    private void aggregate(Aggregate aggregate, boolean isTaken) {
        if (!isTaken) {
            throw fault(aggregate.at(), aggregate.kind() + " stands in SELECT and HAVING alone");
        }
        Type operand = typed(aggregate.operand(), false);
        boolean isSum = aggregate.kind() == Aggregate.Kind.SUM || aggregate.kind() == Aggregate.Kind.AVG;
        if (isSum && !operand.isNumber()) {
            throw fault(aggregate.operand().at(), aggregate.kind() + " takes numbers, and this is " + operand.told());
        }
        if (aggregate.kind() != Aggregate.Kind.COUNT && operand.kind() == Type.Kind.ENTITY) {
            throw fault(aggregate.operand().at(), aggregate.kind() + " takes values that have an order, and this is "
                    + operand.told());
        }
    }

    private void call(Call call, boolean takesAggregates) {
        List<Value> arguments = call.arguments();
        switch (call.function()) {
            case LENGTH, UPPER, LOWER, CONCAT -> arguments.forEach(each -> string(each, takesAggregates));
            case SUBSTRING -> {
                string(arguments.get(0), takesAggregates);
                arguments.stream().skip(1).forEach(each -> number(each, takesAggregates));
            }
            case LOCATE -> {
                string(arguments.get(0), takesAggregates);
                string(arguments.get(1), takesAggregates);
                arguments.stream().skip(2).forEach(each -> number(each, takesAggregates));
            }
            case TRIM -> arguments.stream().skip(1).forEach(each -> string(each, takesAggregates));
            case SIZE -> collection(arguments.get(0), "SIZE");
            case COALESCE, NULLIF -> alike(arguments, takesAggregates);
            case EXTRACT -> extract(arguments, takesAggregates);
            default -> arguments.forEach(each -> number(each, takesAggregates));
        }
    }

    private void string(Value value, boolean takesAggregates) {
        wanted(value, Type.Kind.STRING, Type.STRING, takesAggregates);
    }

    private void extract(List<Value> arguments, boolean takesAggregates) {
        String field = (String) ((Literal) arguments.get(0)).value();
        if (Clock.typeOfField(field) == null) {
            throw fault(arguments.get(0).at(), "\"" + field
                    + "\" is no field; there are YEAR, QUARTER, MONTH, WEEK, DAY,"
                    + " HOUR, MINUTE, SECOND, DATE and TIME");
        }
        wanted(arguments.get(1), Type.Kind.TEMPORAL, Type.UNKNOWN, takesAggregates);
    }

    /** A path, also behind TREAT; of what is none a path to no collection. */
    static Reference path(Value value) {
        return value instanceof Downcast downcast ? downcast.path() : value instanceof Reference path ? path : NO_PATH;
    }

    /** A path to a collection. */
    void collection(Value value, String what) {
        if (!path(value).isCollection()) {
            throw fault(value.at(), what + " takes a path to a collection");
        }
    }

    private void choice(Case choice, boolean takesAggregates) {
        List<Value> results = new ArrayList<>();
        for (When when : choice.whens()) {
            if (when.test() instanceof Condition condition) {
                conditions.check(condition, takesAggregates);
            } else {
                conditions.compared("=", choice.operand(), (Value) when.test(), takesAggregates);
            }
            results.add(when.then());
        }
        results.add(choice.otherwise());
        alike(results, takesAggregates);
    }

    /** Values that may stand for one another. */
    void alike(List<Value> values, boolean takesAggregates) {
        Type known = Type.UNKNOWN;
        for (Value value : values) {
            Type type = typed(value, takesAggregates);
            if (!type.goesWith(known)) {
                throw fault(value.at(), "expected " + known.told() + ", and this is " + type.told());
            }
            known = known.isKnown() ? known : type;
        }
        for (Value value : values) {
            expect(value, known);
        }
    }

    // ---- parameters

    /** That a value, if it is a parameter, is of this type. */
    void expect(Value value, Type type) {
        if (value instanceof Parameter parameter) {
            model(parameter, type, false);
        }
    }

    /** That a parameter is a collection of values of this type. */
    void expectAll(Parameter parameter, Type type) {
        model(parameter, type, true);
    }

    private void model(Parameter parameter, Type type, boolean isList) {
        ParameterModel before = parameters.get(parameter.key());
        Class<?> known = before == null || before.type() == Object.class ? type.java() : before.type();
        parameters.put(parameter.key(), new ParameterModel(parameter.at(), parameter.key(),
                isList ? Collection.class : known == Collection.class ? type.java() : known));
    }

    QueryFault fault(int at, String reason) {
        return QueryFault.at(text, at, reason);
    }
}
