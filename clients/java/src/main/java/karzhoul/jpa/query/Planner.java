package karzhoul.jpa.query;

import java.util.ArrayList;
import java.util.List;
import java.util.function.Predicate;
import karzhoul.jpa.model.UnitModel;
import karzhoul.jpa.query.Tree.And;
import karzhoul.jpa.query.Tree.Asked;
import karzhoul.jpa.query.Tree.ByRows;
import karzhoul.jpa.query.Tree.Condition;
import karzhoul.jpa.query.Tree.Delete;
import karzhoul.jpa.query.Tree.Item;
import karzhoul.jpa.query.Tree.ItemName;
import karzhoul.jpa.query.Tree.Key;
import karzhoul.jpa.query.Tree.Reference;
import karzhoul.jpa.query.Tree.Select;
import karzhoul.jpa.query.Tree.Statement;
import karzhoul.jpa.query.Tree.Update;
import karzhoul.jpa.query.Tree.Value;

/**
 * Makes plans of typed statements: the lowering steps one after the other, each a class of its own, and then what the
 * program can say as its text, and the rest of a SELECT by the door.
 */
final class Planner {
    private final UnitModel unit;
    private final String text;
    private final boolean isExact;

    private Planner(UnitModel unit, String text, boolean isExact) {
        this.unit = unit;
        this.text = text;
        this.isExact = isExact;
    }

    /**
     * The plan of a statement.
     *
     * @throws QueryFault where it can't be answered as the standard says
     */
    static Plan plan(UnitModel unit, String text, Statement statement) {
        Planner planner = new Planner(unit, text, false);
        try {
            if (statement instanceof Select select) {
                return planner.select(select);
            }
            return new ChangePlanner(unit, text, planner).plan(statement instanceof Update update ? update
                    : (Delete) statement);
        } catch (NotKept e) {
            throw QueryFault.refusal(text, e.at, e.getMessage());
        }
    }

    /** The plans of blocks that are asked before. */
    List<SelectPlan> asked(List<Asked> blocks) {
        List<SelectPlan> plans = new ArrayList<>();
        blocks.forEach(block -> plans.add(select(block.select())));
        return plans;
    }

    /** A SELECT, or a block that is a question of its own. */
    SelectPlan select(Select typed) {
        return select(typed, test -> false);
    }

    /** A SELECT in which the door decides these tests of WHERE, whether the program could or not. */
    static SelectPlan select(UnitModel unit, String text, Select typed, Predicate<Condition> byDoor) {
        return new Planner(unit, text, false).select(typed, byDoor);
    }

    private SelectPlan select(Select typed, Predicate<Condition> byDoor) {
        Fetches.Split split = Fetches.of(text, typed);
        Blocks blocks = new Blocks(text);
        Select decided = byRows(new CaseTests(true).select(new WholeKeys().select(new Treats(text).select(
                new Negation().select(split.select())))));
        Select lowered = blocks.select(decided);
        lowered = new Averages().select(new Joins(text, false).select(lowered));
        Parts parts = new Parts(lowered, asked(blocks.asked()), split.fetches(),
                new Inexact.Instead<>(() -> new Planner(unit, text, true).select(typed, byDoor)));
        BlockWriter writer = new BlockWriter(unit, isExact);
        Text from = writer.from(lowered.sources());
        List<Text> kept = new ArrayList<>();
        List<Condition> filters = new ArrayList<>();
        for (Condition conjunct : conjuncts(lowered.where())) {
            if (byDoor.test(conjunct)) {
                filters.add(conjunct);
                continue;
            }
            try {
                kept.add(writer.conditions.condition(conjunct));
            } catch (NotKept e) {
                if (!(conjunct instanceof ByRows) && Visiting.hasBlock(conjunct)) {
                    throw new NotKept(e.at, e.getMessage()
                            + "; where no subquery stands beside it but by AND, the door "
                            + "decides it");
                }
                filters.add(conjunct);
            }
        }
        checkVariables(typed, writer.names);
        Text body = Text.of(" FROM ").add(from);
        if (!kept.isEmpty()) {
            body.add(" WHERE ").add(Text.joined(" AND ", kept));
        }
        SelectPlan plan = new Body(writer, parts, body, filters).plan();
        checkParentheses(typed, plan);
        return plan;
    }

    // ---- blocks that the program can't be asked with the statement

    /** The SELECT with a mark on those tests whose blocks the program can't say: the door decides them row by row. */
    private Select byRows(Select select) {
        List<Condition> tests = new ArrayList<>();
        for (Condition test : conjuncts(select.where())) {
            tests.add(Visiting.hasBlock(test) && !isKept(select, test, null) ? byRows(test) : test);
        }
        Condition having = select.having();
        if (having != null && Visiting.hasBlock(having) && !isKept(select, null, having)) {
            having = byRows(having);
        }
        Condition where = tests.isEmpty() ? null : tests.size() == 1 ? tests.get(0) : new And(tests.get(0).at(), tests);
        return new Select(select.at(), select.isDistinct(), select.items(), select.sources(), where, select.groups(),
                having, select.order());
    }

    private static Condition byRows(Condition test) {
        return new ByRows(test.at(), RowBlocks.ofCollections(test));
    }

    private boolean isKept(Select select, Condition where, Condition having) {
        try {
            Blocks blocks = new Blocks(text);
            Select alone = new Joins(text, false).select(blocks.select(new Select(select.at(), false, List.of(),
                    select.sources(), where, select.groups(), having, List.of())));
            BlockWriter writer = new BlockWriter(unit, isExact);
            writer.from(alone.sources());
            conjuncts(alone.where()).forEach(writer.conditions::condition);
            return true;
        } catch (NotKept e) {
            return false;
        } catch (QueryFault e) {
            if (e.isRefusal()) {
                return false;
            }
            throw e;
        }
    }

    /** What all plans of one SELECT share. */
    private record Parts(Select select, List<SelectPlan> asked, List<Fetches.Fetch> fetches, Inexact.Instead<SelectPlan> instead) {
        Parts with(Select other) {
            return new Parts(other, asked, fetches, instead);
        }
    }

    static List<Condition> conjuncts(Condition where) {
        return where == null ? List.of() : where instanceof And and ? and.parts() : List.of(where);
    }

    void checkVariables(Select select, Names names) {
        int most = Grammar.PROGRAM.variables();
        if (names.count() > most) {
            throw QueryFault.refusal(text, select.at(), "the statement takes " + names.count()
                    + " variables, those of its "
                    + "subqueries and of its joins over several steps too, and there are at most " + most);
        }
    }

    private void checkParentheses(Select select, SelectPlan plan) {
        int depth = 0;
        int deepest = 0;
        for (char c : plan.text().shape().toCharArray()) {
            depth += c == '(' ? 1 : c == ')' ? -1 : 0;
            deepest = Math.max(deepest, depth);
        }
        int most = Grammar.PROGRAM.parentheses();
        if (deepest > most) {
            throw QueryFault.refusal(text, select.at(), "the statement takes " + deepest + " parentheses within one "
                    + "another, and there are at most " + most);
        }
    }

    /** What stands behind WHERE, and the items. */
    private final class Body {
        private final BlockWriter writer;
        private final Parts parts;
        private final Select select;
        private final Text body;
        private final List<Condition> filters;
        private final boolean isGrouped;

        Body(BlockWriter writer, Parts parts, Text body, List<Condition> filters) {
            this.writer = writer;
            this.parts = parts;
            this.select = parts.select();
            this.body = body;
            this.filters = filters;
            this.isGrouped = Grouping.isGrouped(select);
        }

        SelectPlan plan() {
            if (!isGrouped) {
                return byRows(null);
            }
            SelectPlan kept = filters.isEmpty() ? byGroupsOrNull() : null;
            return kept != null ? kept : new Body(writer, parts.with(new Counts().select(select)), body, filters)
                    .byRows(select.groups());
        }

        private SelectPlan byGroupsOrNull() {
            try {
                return byGroups();
            } catch (NotKept e) {
                return null;
            }
        }

        /** The program makes no groups; the door does, where there are some. */
        private SelectPlan byRows(List<Value> groups) {
            Leaves leaves = new Leaves(Planner.this, writer.values, false);
            addItems(leaves);
            filters.forEach(leaves::add);
            if (groups != null) {
                groups.forEach(leaves::add);
            }
            if (select.having() != null) {
                leaves.add(select.having());
            }
            boolean isPlain = groups == null && filters.isEmpty();
            boolean isDistinctKept = isPlain && isDistinctKept(leaves);
            List<Text> order = isPlain && (isDistinctKept || !select.isDistinct()) ? order(leaves) : null;
            return finished(leaves, groups, select.having(), order, isDistinctKept, Text.of(""));
        }

        /** The program makes the groups. */
        private SelectPlan byGroups() {
            Select completed = Grouping.completed(select);
            Leaves leaves = new Leaves(Planner.this, writer.values, true);
            addItems(leaves);
            Text tail = new Text();
            List<Text> groups = new ArrayList<>();
            for (Value group : completed.groups()) {
                groups.add(Text.of(writer.values.path((Reference) group)));
            }
            if (!groups.isEmpty()) {
                tail.add(" GROUP BY ").add(Text.joined(", ", groups));
            }
            Condition having = select.having();
            if (having != null) {
                try {
                    tail.add(" HAVING ").add(writer.conditions.condition(having));
                    having = null;
                } catch (NotKept e) {
                    tail = groups.isEmpty() ? new Text() : Text.of(" GROUP BY ").add(Text.joined(", ", groups));
                    leaves.add(having);
                }
            }
            boolean isDistinctKept = having == null && isDistinctKept(leaves);
            List<Text> order = having == null && (isDistinctKept || !select.isDistinct()) ? order(leaves) : null;
            return finished(leaves, null, having, order, isDistinctKept, tail);
        }

        private void addItems(Leaves leaves) {
            for (Item item : select.items()) {
                leaves.add(item.value());
            }
        }

        /** Whether the program keeps the first of equal rows: each item is a column, and there are no others. */
        private boolean isDistinctKept(Leaves leaves) {
            return select.isDistinct() && select.items().stream().allMatch(item -> leaves.place(item.value()) != null)
                    && !leaves.columns().isEmpty();
        }

        /** ORDER BY in the program's words, or null where the door sorts. */
        private List<Text> order(Leaves leaves) {
            List<Text> keys = new ArrayList<>();
            for (Key key : select.order()) {
                Text by = key(leaves, key.value());
                if (by == null) {
                    return null;
                }
                keys.add(by.add(key.isDescending() ? " DESC" : ""));
            }
            return keys;
        }

        private Text key(Leaves leaves, Value value) {
            Value sorted = value instanceof ItemName name ? select.items().get(name.place()).value() : value;
            Integer place = select.isDistinct() ? leaves.place(sorted) : leaves.placeOfWhole(sorted);
            if (place != null) {
                return Text.of("c" + place);
            }
            if (!(sorted instanceof Reference path) || path.isWholeKey() || path.isEntity()) {
                return null;
            }
            if (select.isDistinct() && !isGiven(path)) {
                throw notGiven(value.at(), path, "");
            }
            boolean isSortedByDoor = select.isDistinct() && !path.steps().isEmpty();
            return isSortedByDoor ? null : Text.of(writer.values.path(path));
        }

        private boolean isGiven(Reference path) {
            return select.items().stream().anyMatch(item -> item.value() instanceof Reference given
                    && (given.isSame(path) || given.isEntity() && given.variable() == path.variable()
                            && given.steps().equals(path.steps()) && path.attribute() != null));
        }

        private SelectPlan finished(Leaves leaves, List<Value> groups, Condition having, List<Text> order,
                boolean isDistinctKept, Text tail) {
            int columns = leaves.columns().size();
            List<SelectPlan.Sorted> sorted = order == null ? sorted(leaves) : List.of();
            // DISTINCT over a column more would keep rows that are equal
            boolean isDistinctByProgram = isDistinctKept && leaves.columns().size() == columns;
            if (leaves.columns().isEmpty()) {
                leaves.addNothing();
            }
            Text whole = Text.of(isDistinctByProgram ? "SELECT DISTINCT "
                    : "SELECT ").add(columns(leaves)).add(body).add(tail);
            if (order != null && !order.isEmpty()) {
                whole.add(" ORDER BY ").add(Text.joined(", ", order));
            }
            return new SelectPlan(whole, leaves, select.items(), filters, groups, having,
                    select.isDistinct() && !isDistinctByProgram, sorted, parts.asked(), parts.fetches(),
                    Blocks.isOneRow(select), OneByKey.of(select), parts.instead());
        }

        /** The keys by which the door sorts. */
        private List<SelectPlan.Sorted> sorted(Leaves leaves) {
            List<SelectPlan.Sorted> sorted = new ArrayList<>();
            for (Key key : select.order()) {
                Value value = key.value() instanceof ItemName name ? select.items().get(name.place()).value()
                        : key.value();
                if (select.isDistinct() && !(key.value() instanceof ItemName)) {
                    checkGiven(value);
                }
                leaves.add(value);
                sorted.add(new SelectPlan.Sorted(value, key.isDescending()));
            }
            return sorted;
        }

        private void checkGiven(Value value) {
            new Rewriting() {
                @Override
                Value value(Value part) {
                    if (part instanceof Reference path && !isGiven(path)) {
                        throw notGiven(path.at(), path, value instanceof Reference ? ""
                                : "; select the whole expression AS a name, and order by that");
                    }
                    return valueWithin(part);
                }
            }.value(value);
        }

        private QueryFault notGiven(int at, Reference path, String remedy) {
            return QueryFault.at(text, at, "with DISTINCT, ORDER BY takes what is selected, and \"" + path
                    + "\" isn't" + remedy);
        }

        private Text columns(Leaves leaves) {
            List<Text> columns = new ArrayList<>();
            for (Leaves.Column column : leaves.columns()) {
                columns.add(new Text().add(column.text()).add(select.order().isEmpty() ? "" : " AS c"
                        + columns.size()));
            }
            return Text.joined(", ", columns);
        }
    }
}
