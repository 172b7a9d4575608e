package karzhoul.jpa.query;

import java.util.ArrayList;
import java.util.HashSet;
import java.util.List;
import java.util.Set;
import java.util.function.Function;
import java.util.stream.Collectors;
import karzhoul.jpa.model.Attribute;
import karzhoul.jpa.model.EntityModel;
import karzhoul.jpa.model.UnitModel;
import karzhoul.jpa.model.Width;
import karzhoul.jpa.query.ChangePlan.ByKeys;
import karzhoul.jpa.query.ChangePlan.Texts;
import karzhoul.jpa.query.Tree.Assignment;
import karzhoul.jpa.query.Tree.Case;
import karzhoul.jpa.query.Tree.Condition;
import karzhoul.jpa.query.Tree.Delete;
import karzhoul.jpa.query.Tree.Item;
import karzhoul.jpa.query.Tree.Literal;
import karzhoul.jpa.query.Tree.Parameter;
import karzhoul.jpa.query.Tree.Range;
import karzhoul.jpa.query.Tree.Reference;
import karzhoul.jpa.query.Tree.Select;
import karzhoul.jpa.query.Tree.Statement;
import karzhoul.jpa.query.Tree.Update;
import karzhoul.jpa.query.Tree.Value;
import karzhoul.jpa.query.ValueWriter.Written;

/** Makes plans of UPDATE and DELETE (chapter 4.10). */
final class ChangePlanner {
    /** What is true of objects whose new value would not fit, and what they would get. */
    private record Check(Text text, String words) {}

    private final UnitModel unit;
    private final String text;
    private final Planner planner;
    private final BlockWriter writer;
    private final Blocks blocks;

    ChangePlanner(UnitModel unit, String text, Planner planner) {
        this.unit = unit;
        this.text = text;
        this.planner = planner;
        this.writer = new BlockWriter(unit, false);
        this.blocks = new Blocks(text);
    }

    ChangePlan plan(Statement statement) {
        if (statement instanceof Delete delete) {
            return plan(delete.range(), delete.where(), deleting(delete.range()));
        }
        Update update = (Update) statement;
        return plan(update.range(), update.where(), updating(update));
    }

    private ChangePlan plan(Range range, Condition where, Function<Text, Texts> of) {
        Text kept = where(where);
        return new ChangePlan(kept == null ? null : of.apply(kept), kept == null ? byKeys(range, where, of) : null,
                new Inexact.Instead<>(() -> byKeys(range, where, of)), planner.asked(blocks.asked()));
    }

    private Function<Text, Texts> deleting(Range range) {
        String of = range(range);
        String name = writer.names.of(range.variable());
        EntityModel entity = range.variable().entity;
        return where -> new Texts(Text.of("DELETE FROM " + of).add(where), null, "", RowsGone.of(entity, name, where),
                OrdersGone.of(entity, name, where), UniquesMoved.of(entity, name, where, unique -> true));
    }

    private Function<Text, Texts> updating(Update update) {
        String range = range(update.range());
        String name = writer.names.of(update.range().variable());
        List<Text> assignments = new ArrayList<>();
        List<Check> checks = new ArrayList<>();
        Set<Object> changed = new HashSet<>();
        for (Assignment assignment : update.assignments()) {
            assignments.add(assignment(assignment, checks));
            changed.add(changed((Reference) assignment.path()));
        }
        Text set = Text.joined(", ", assignments);
        Text beyond = checks.isEmpty() ? null : Text.joined(" OR ", checks.stream().map(Check::text).toList());
        String words = checks.stream().map(Check::words).distinct().collect(Collectors.joining(", or "));
        return where -> new Texts(Text.of("UPDATE " + range + " SET ").add(set).add(where),
                beyond == null ? null : Text.of("SELECT COUNT(" + name + ") FROM " + range).add(where)
                        .add(where.isEmpty() ? " WHERE (" : " AND (").add(beyond).add(")"), words,
                List.of(), List.of(), UniquesMoved.of(update.range().variable().entity, name, where, unique -> unique.parts().stream()
                        .anyMatch(part -> changed.contains(part.attribute()) || changed.contains(part.relation()))));
    }

    /** What an assignment changes: an attribute, or the relation at the end of its path. */
    private static Object changed(Reference path) {
        return path.attribute() != null ? path.attribute() : path.steps().get(path.steps().size() - 1);
    }

    private String range(Range range) {
        return range.variable().entity.mappedName() + " " + writer.names.of(range.variable());
    }

    /** WHERE in the program's words; null where it can't say it. */
    private Text where(Condition where) {
        if (where == null) {
            return new Text();
        }
        try {
            where(where, new Blocks(text), new BlockWriter(unit, false));
        } catch (NotKept e) {
            return null;
        } catch (QueryFault e) {
            if (e.isRefusal()) {
                return null;
            }
            throw e;
        }
        return where(where, blocks, writer);
    }

    private Text where(Condition where, Blocks blocks, BlockWriter writer) {
        Condition lowered = new Joins(text, true).condition(blocks.filter(new CaseTests(true).condition(
                new WholeKeys().condition(new Treats(text).filter(new Negation().condition(where))))));
        return Text.of(" WHERE ").add(writer.conditions.condition(lowered));
    }

    /** The keys of those for which WHERE is true are asked for, by a SELECT with what the door decides. */
    private ByKeys byKeys(Range range, Condition where, Function<Text, Texts> of) {
        List<Attribute> parts = range.variable().entity.key().parts();
        List<Item> items = new ArrayList<>();
        List<String> paths = new ArrayList<>();
        for (Attribute part : parts) {
            Reference path = new Reference(range.at(), range.variable(), List.of(), part, false);
            items.add(new Item(path, null));
            paths.add(writer.values.path(path));
        }
        SelectPlan keys = planner.select(new Select(range.at(), false, items, List.of(range), where, List.of(), null,
                List.of()));
        return new ByKeys(keys, parts, paths, of);
    }

    private Text assignment(Assignment assignment, List<Check> checks) {
        Reference path = (Reference) assignment.path();
        Value value = blocks.value(new CaseTests(false).value(new Negation().value(assignment.value())));
        Text to = Text.of(writer.values.path(path) + " = ");
        boolean isNothing = value instanceof Literal literal && literal.value() == null;
        if (isNothing && (path.attribute() == null || path.attribute().codec().toColumn(null) == null)) {
            return to.add("NULL");
        }
        if (path.attribute() == null) {
            if (!(value instanceof Parameter)) {
                throw new NotKept(value.at(), "SET gives a link a parameter or NULL");
            }
            return to.add(writer.values.in(value, Unit.THINGS).text());
        }
        if (Binding.isConstant(value)) {
            return to.add(constant(path, value));
        }
        Written written = computed(path, value);
        check(path, value, written, checks);
        return to.add(written.text());
    }

    /** What the program computes; where it can't, there is no door beside it in SET, so another way is named. */
    private Written computed(Reference path, Value value) {
        Unit unit = Unit.of(path.attribute().codec());
        try {
            return writer.values.in(unit instanceof Unit.Whole ? decimal(value) : value, unit);
        } catch (NotKept e) {
            boolean hasCase = Visiting.has(value, part -> part instanceof Case);
            throw new NotKept(e.at, e.getMessage() + (hasCase
                    ? "; in SET put what CASE asks into WHERE, with an UPDATE for each value, or load the entities and set it"
                    : "; in SET give a parameter that has the value, or load the entities and set it"));
        }
    }

    /** With literals as the decimals that stand there, since a decimal or a whole number is set. */
    private static Value decimal(Value value) {
        return new Rewriting() {
            @Override
            Value value(Value part) {
                return part instanceof Literal literal && literal.value() instanceof Number number
                        ? new Literal(part.at(), Conversions.decimal(number)) : valueWithin(part);
            }
        }.value(value);
    }

    /** A constant as the attribute's codec keeps it. */
    private Text constant(Reference path, Value value) {
        var codec = path.attribute().codec();
        if (value instanceof Literal literal) {
            try {
                Object column = codec.toColumn(Conversions.to(codec.javaType(), literal.value()));
                checkRoom(path, literal.value(), column);
            } catch (RuntimeException e) {
                throw new NotKept(value.at(), e.getMessage());
            }
        }
        return new Text().add((binding, out) -> {
            Object set = binding.constant(value);
            Object column = binding.kept(codec, value, set);
            checkRoom(path, set, column);
            out.append(binding.parameter(column));
        });
    }

    private static void checkRoom(Reference path, Object value, Object column) {
        try {
            path.attribute().width().check(value, column);
        } catch (IllegalArgumentException e) {
            throw new IllegalArgumentException(named(path) + " can't be stored: " + e.getMessage(), e);
        }
    }

    private static String named(Reference path) {
        return path.entity().name() + "." + path.attribute().path();
    }

    /** What would be beyond the attribute's Java type or its column's room is looked for before anything is changed. */
    private static void check(Reference path, Value value, Written written, List<Check> checks) {
        Class<?> java = path.attribute().codec().javaType();
        long most = java == Integer.class ? Integer.MAX_VALUE : java == Short.class ? Short.MAX_VALUE
                : java == Byte.class ? Byte.MAX_VALUE : Long.MAX_VALUE;
        boolean isSameType = value instanceof Reference of && of.attribute().codec().javaType() == java;
        if (most != Long.MAX_VALUE && !isSameType) {
            checks.add(new Check(new Text().add(written.within(0)).add(" > " + most + " OR ").add(written.within(0))
                    .add(" < -" + (most + 1)), "a number beyond " + java.getSimpleName() + ", the type of " + named(path)));
        }
        Width width = path.attribute().width();
        boolean isSame = value instanceof Reference of && of.attribute() == path.attribute();
        String words = "what " + named(path) + " has no room for by " + width.said();
        if (width.most() != Long.MAX_VALUE && !isSame) {
            checks.add(new Check(new Text().add(written.within(0)).add(" > " + width.most() + " OR ")
                    .add(written.within(0)).add(" < -" + width.most()), words));
        } else if (width.letters() > 0 && !isSame) {
            checks.add(new Check(Text.of("LENGTH(").add(written.within(0)).add(") > " + width.letters()), words));
        }
    }
}
