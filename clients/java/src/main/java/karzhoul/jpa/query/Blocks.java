package karzhoul.jpa.query;

import java.util.ArrayList;
import java.util.Collections;
import java.util.IdentityHashMap;
import java.util.List;
import java.util.Set;
import karzhoul.jpa.model.Attribute;
import karzhoul.jpa.model.Relation;
import karzhoul.jpa.query.Tree.Aggregate;
import karzhoul.jpa.query.Tree.Always;
import karzhoul.jpa.query.Tree.And;
import karzhoul.jpa.query.Tree.Asked;
import karzhoul.jpa.query.Tree.ByRows;
import karzhoul.jpa.query.Tree.Call;
import karzhoul.jpa.query.Tree.Compare;
import karzhoul.jpa.query.Tree.Condition;
import karzhoul.jpa.query.Tree.Derived;
import karzhoul.jpa.query.Tree.Exists;
import karzhoul.jpa.query.Tree.Item;
import karzhoul.jpa.query.Tree.IsNull;
import karzhoul.jpa.query.Tree.Join;
import karzhoul.jpa.query.Tree.Key;
import karzhoul.jpa.query.Tree.Literal;
import karzhoul.jpa.query.Tree.Or;
import karzhoul.jpa.query.Tree.Quantified;
import karzhoul.jpa.query.Tree.Reference;
import karzhoul.jpa.query.Tree.Scalar;
import karzhoul.jpa.query.Tree.Select;
import karzhoul.jpa.query.Tree.Source;
import karzhoul.jpa.query.Tree.TypeIs;
import karzhoul.jpa.query.Tree.Value;
import karzhoul.jpa.query.Tree.Variable;

/**
 * Brings what is asked of subqueries to EXISTS, which the program has; {@link Negation} has passed before, so each test
 * need be true for the right rows alone. A value that goes into the block leaves a test of its own behind, that is
 * always true, where a null link on its path leaves the row out.
 */
final class Blocks extends Rewriting {
    private final String text;
    private final List<Asked> asked = new ArrayList<>();
    private final Set<Variable> optional = Collections.newSetFromMap(new IdentityHashMap<>());
    private List<Reference> moved = new ArrayList<>();
    private boolean isHaving;
    private boolean isWithin;

    Blocks(String text) {
        this.text = text;
    }

    /** The blocks of their own, whose values are asked before the statement. */
    List<Asked> asked() {
        return asked;
    }

    /** WHERE of an UPDATE or DELETE. */
    Condition filter(Condition where) {
        isWithin = true;
        return kept(conditionOrNull(where));
    }

    @Override
    Select select(Select select) {
        List<Reference> outer = moved;
        boolean outerHaving = isHaving;
        moved = new ArrayList<>();
        isHaving = false;
        boolean isBlock = isWithin;
        isWithin = true;
        List<Source> sources = each(select.sources(), this::source);
        List<Item> items = each(select.items(), isBlock ? this::item : this::itemAround);
        Condition where = kept(conditionOrNull(select.where()));
        isHaving = true;
        Condition having = conditionOrNull(select.having());
        isHaving = outerHaving;
        moved = outer;
        isWithin = isBlock;
        return new Select(select.at(), select.isDistinct(), items, sources, where, select.groups(), having,
                each(select.order(), key -> new Key(value(key.value()), key.isDescending())));
    }

    /** Of a statement's item only blocks that are asked before: others are asked for each row. */
    private Item itemAround(Item item) {
        return new Item(new Rewriting() {
            @Override
            Value value(Value value) {
                return value instanceof Scalar scalar && isAlone(scalar.select()) ? asked(scalar) : valueWithin(value);
            }

            @Override
            Select select(Select select) {
                return select;
            }
        }.value(item.value()), item.name());
    }

    /** A condition with tests that name the paths that went into blocks. */
    private Condition kept(Condition where) {
        List<Condition> all = new ArrayList<>();
        if (where instanceof And and) {
            all.addAll(and.parts());
        } else if (where != null) {
            all.add(where);
        }
        for (Reference path : moved) {
            all.add(new Or(path.at(), List.of(new IsNull(path.at(), false, path), new IsNull(path.at(), true, path))));
        }
        moved = new ArrayList<>();
        return all.isEmpty() ? null : all.size() == 1 ? all.get(0) : new And(all.get(0).at(), all);
    }

    @Override
    Source source(Source source) {
        if (source instanceof Join join && join.isLeft()) {
            optional.add(join.variable());
        }
        return sourceWithin(source);
    }

    // ---- values

    @Override
    Value value(Value value) {
        return value instanceof Scalar scalar ? asked(scalar) : valueWithin(value);
    }

    private Value asked(Scalar scalar) {
        if (!isAlone(scalar.select())) {
            throw unserved(scalar.at(), scalar.select());
        }
        Asked block = new Asked(scalar.at(), scalar.select(), asked.size());
        asked.add(block);
        return block;
    }

    private QueryFault unserved(int at, Select select) {
        return refusal(at, "a subquery that uses a variable from outside is served behind EXISTS, IN, ALL and "
                    + "ANY, and compared where it is MAX or MIN; "
                    + (isAggregate(select) ? "ask it by a query of its own, or group by what it is joined with"
                            : "write = ANY (..), which is the same where it has one row"));
    }

    private static boolean isAggregate(Select select) {
        return Grouping.hasAggregate(select.items().get(0).value());
    }

    /** Whether a block uses no variable from outside. */
    static boolean isAlone(Select select) {
        Set<Variable> own = Collections.newSetFromMap(new IdentityHashMap<>());
        List<Variable> used = new ArrayList<>();
        new Rewriting() {
            @Override
            Source source(Source source) {
                own.add(source.variable());
                return sourceWithin(source);
            }

            @Override
            Value value(Value value) {
                if (value instanceof Reference path) {
                    used.add(path.variable());
                }
                return valueWithin(value);
            }
        }.select(select);
        return own.containsAll(used);
    }

    // ---- conditions

    @Override
    Condition condition(Condition condition) {
        if (condition instanceof ByRows) {
            return condition;
        } else if (condition instanceof Quantified of) {
            return quantified(of);
        } else if (condition instanceof Compare of && of.right() instanceof Scalar scalar
                && !isAlone(scalar.select())) {
            return compared(of, of.sign(), of.left(), scalar.select());
        } else if (condition instanceof Compare of && of.left() instanceof Scalar scalar && !isAlone(scalar.select())) {
            return compared(of, ConditionWriter.turned(of.sign()), of.right(), scalar.select());
        } else if (condition instanceof Exists of) {
            return exists(of);
        } else if (condition instanceof TypeIs of && !(of.of() instanceof Reference path && path.steps().isEmpty())) {
            return typeIs(of);
        }
        return conditionWithin(condition);
    }

    private Condition quantified(Quantified of) {
        checkClause(of.at());
        if (isAggregate(of.select()) && of.select().groups().isEmpty()) {
            return condition(new Compare(of.at(), of.sign(), of.left(), new Scalar(of.at(), of.select())));
        }
        checkPlain(of.select());
        Value left = value(of.left());
        Value item = of.select().items().get(0).value();
        return of.isAll() ? all(of.at(), of.sign(), left, of.select(), item)
                : exists(of.at(), false, of.select(), new Compare(of.at(), of.sign(), left, item), left);
    }

    /** All are true: there is none for which the comparison is false or unknown. */
    private Condition all(int at, String sign, Value left, Select select, Value item) {
        List<Condition> fails = new ArrayList<>();
        fails.add(new Compare(at, Negation.opposite(sign), left, item));
        if (canBeNull(item)) {
            fails.add(new IsNull(at, false, item));
        }
        if (canBeNull(left)) {
            fails.add(new IsNull(at, false, left));
        }
        Condition failing = fails.size() == 1 ? fails.get(0) : new Or(at, fails);
        return exists(at, true, select, failing, left);
    }

    private boolean canBeNull(Value value) {
        if (value instanceof Reference path) {
            if (path.steps().isEmpty() && optional.contains(path.variable())) {
                return true;
            }
            if (path.attribute() != null) {
                return path.attribute().role() == Attribute.Role.PLAIN && !path.attribute().isRequired();
            }
            Relation last = path.steps().isEmpty() ? null : path.steps().get(path.steps().size() - 1);
            return last != null && !(last.isRequired() && last.isOwner());
        }
        return !(value instanceof Literal);
    }

    /** EXISTS of a block with one more condition, which names a value from outside. */
    private Condition exists(int at, boolean isNot, Select select, Condition more, Value outside) {
        move(outside);
        List<Condition> all = new ArrayList<>();
        if (select.where() != null) {
            all.add(select.where());
        }
        all.add(more);
        Select asking = new Select(select.at(), false, select.items(), select.sources(),
                all.size() == 1 ? all.get(0) : new And(at, all), List.of(), null, List.of());
        return new Exists(at, isNot, select(Fresh.copy(asking)));
    }

    private void move(Value outside) {
        new Rewriting() {
            @Override
            Value value(Value value) {
                if (value instanceof Reference path && path.canDrop() && moved.stream().noneMatch(path::isSame)) {
                    moved.add(path);
                }
                return valueWithin(value);
            }
        }.value(outside);
    }

    // ---- comparisons with a block that uses variables from outside

    private Condition compared(Compare of, String sign, Value other, Select select) {
        checkClause(of.at());
        checkPlain(select);
        Value left = value(other);
        Value item = select.items().get(0).value();
        if (item instanceof Aggregate aggregate) {
            return switch (aggregate.kind()) {
                case MAX -> extreme(of.at(), sign, left, select, aggregate.operand(), true);
                case MIN -> extreme(of.at(), turned(sign), left, select, aggregate.operand(), false);
                case COUNT -> counted(of, sign, left, select, aggregate);
                default -> throw unserved(of.at(), select);
            };
        }
        if (isAggregate(select) || !isOneRow(select)) {
            throw unserved(of.at(), select);
        }
        return exists(of.at(), false, select, new Compare(of.at(), sign, left, item), left);
    }

    private static String turned(String sign) {
        return ConditionWriter.turned(sign);
    }

    /** A comparison with MAX; that with MIN is the same with each sign turned. */
    private Condition extreme(int at, String sign, Value x, Select select, Value y, boolean isMax) {
        return switch (sign) {
            case "<" -> some(at, ">", x, select, y, isMax);
            case "<=" -> some(at, ">=", x, select, y, isMax);
            case ">" -> some(at, "<", x, select, y, isMax, none(at, ">=", x, select, y, isMax));
            case ">=" -> some(at, "<=", x, select, y, isMax, none(at, ">", x, select, y, isMax));
            case "=" -> some(at, "=", x, select, y, isMax, none(at, ">", x, select, y, isMax));
            default -> new Or(at, List.of(some(at, ">", x, select, y, isMax),
                    some(at, "<", x, select, y, isMax, none(at, ">=", x, select, y, isMax))));
        };
    }

    private Condition some(int at, String sign, Value x, Select select, Value y, boolean isMax) {
        return exists(at, false, select, new Compare(at, isMax ? sign : turned(sign), y, x), x);
    }

    private Condition some(int at, String sign, Value x, Select select, Value y, boolean isMax, Condition none) {
        return new And(at, List.of(some(at, sign, x, select, y, isMax), none));
    }

    private Condition none(int at, String sign, Value x, Select select, Value y, boolean isMax) {
        return exists(at, true, select, new Compare(at, isMax ? sign : turned(sign), y, x), x);
    }

    /** The collection whose members a block counts, all of them; else null. */
    private static Reference counted(Select select, Aggregate count) {
        boolean isWhole = select.sources().size() == 1 && select.where() == null && !count.isDistinct()
                && select.sources().get(0) instanceof Derived;
        if (!isWhole || !Fetches.isVariable(count.operand(), select.sources().get(0).variable())) {
            return null;
        }
        Reference path = (Reference) ((Derived) select.sources().get(0)).path();
        return path.isCollection() ? path : null;
    }

    /** COUNT compared with 0 or 1, as whether there is one. */
    private Condition counted(Compare of, String sign, Value other, Select select, Aggregate count) {
        Reference collection = counted(select, count);
        if (collection != null) {
            move(collection);
            return condition(new Compare(of.at(), sign, other, new Call(of.at(), Function.SIZE, List.of(collection))));
        }
        String asks = turned(sign) + (other instanceof Literal literal ? literal.value() : "");
        boolean isAny = List.of(">0", "<>0", ">=1").contains(asks);
        if (!isAny && !List.of("=0", "<=0", "<1").contains(asks)) {
            throw refusal(of.at(), "COUNT of a subquery that uses a variable from outside is compared with 0 alone; "
                    + "SIZE counts a collection, and GROUP BY with HAVING the rows of a join");
        }
        Value operand = count.operand();
        Condition more = canBeNull(operand) ? new IsNull(of.at(), true, operand) : new Always(of.at(), true);
        return exists(of.at(), !isAny, select, more, other);
    }

    /** Whether a block has one row at most: one variable whose key its condition tells, or a link. */
    static boolean isOneRow(Select select) {
        if (select.sources().size() != 1) {
            return false;
        }
        Source source = select.sources().get(0);
        if (source instanceof Derived derived) {
            return !((Reference) derived.path()).isCollection();
        }
        List<Condition> all = select.where() instanceof And and ? and.parts()
                : select.where() == null ? List.of() : List.of(select.where());
        for (Attribute part : source.variable().entity.key().parts()) {
            if (all.stream().noneMatch(test -> tells(test, source.variable(), part))) {
                return false;
            }
        }
        return true;
    }

    private static boolean tells(Condition test, Variable variable, Attribute part) {
        return test instanceof Compare compare && compare.sign().equals("=")
                && (isKey(compare.left(), variable, part) && !names(compare.right(), variable)
                        || isKey(compare.right(), variable, part) && !names(compare.left(), variable));
    }

    private static boolean isKey(Value value, Variable variable, Attribute part) {
        return value instanceof Reference path && path.variable() == variable && path.steps().isEmpty()
                && (path.attribute() == part || path.attribute() == null && !path.isWholeKey());
    }

    private static boolean names(Value value, Variable variable) {
        return Visiting.has(value, part -> part instanceof Reference path && path.variable() == variable);
    }

    // ---- EXISTS and TYPE

    private Condition exists(Exists of) {
        checkClause(of.at());
        Select select = of.select();
        if (select.having() != null) {
            throw refusal(select.having().at(), "HAVING in a subquery isn't served; ask it by a query of its own, and "
                    + "give its rows to IN as a parameter");
        }
        if (isAggregate(select) && select.groups().isEmpty()) {
            return new Always(of.at(), !of.isNot());
        }
        return new Exists(of.at(), of.isNot(), select(new Select(select.at(), false, select.items(), select.sources(),
                select.where(), List.of(), null, List.of())));
    }

    private Condition typeIs(TypeIs of) {
        if (!(of.of() instanceof Reference path)) {
            throw refusal(of.at(), "TYPE of a parameter isn't served; its class is known in Java");
        }
        checkClause(of.at());
        move(path);
        Variable one = new Variable("one", path.entity());
        Reference itself = new Reference(of.at(), one, List.of(), null, false);
        Condition is = new TypeIs(of.at(), of.isNot(), itself, of.classes());
        return new Exists(of.at(), false, new Select(of.at(), false, List.of(new Item(itself, null)),
                List.of(new Derived(of.at(), false, path, one.name, one)), is, List.of(), null, List.of()));
    }

    private void checkClause(int at) {
        if (isHaving) {
            throw refusal(at,
                    "a subquery in HAVING is served where it uses no variable from outside and is compared as "
                    + "one value");
        }
    }

    private void checkPlain(Select select) {
        if (!select.groups().isEmpty() || select.having() != null) {
            throw refusal(select.at(),
                    "GROUP BY and HAVING in a subquery aren't served; ask it by a query of its own, and "
                    + "give its rows to IN as a parameter");
        }
    }

    private QueryFault refusal(int at, String reason) {
        return QueryFault.refusal(text, at, reason);
    }
}
