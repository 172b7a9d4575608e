package karzhoul.jpa.query;

import java.util.ArrayList;
import java.util.List;
import karzhoul.jpa.query.Tree.Aggregate;
import karzhoul.jpa.query.Tree.Assignment;
import karzhoul.jpa.query.Tree.Condition;
import karzhoul.jpa.query.Tree.Construct;
import karzhoul.jpa.query.Tree.Delete;
import karzhoul.jpa.query.Tree.Derived;
import karzhoul.jpa.query.Tree.Item;
import karzhoul.jpa.query.Tree.Join;
import karzhoul.jpa.query.Tree.Key;
import karzhoul.jpa.query.Tree.Literal;
import karzhoul.jpa.query.Tree.Path;
import karzhoul.jpa.query.Tree.Range;
import karzhoul.jpa.query.Tree.Select;
import karzhoul.jpa.query.Tree.Source;
import karzhoul.jpa.query.Tree.Statement;
import karzhoul.jpa.query.Tree.Update;
import karzhoul.jpa.query.Tree.Value;

/**
 * Reads statements (chapter 4.14, the grammar). Beyond that of 3.1 it takes a value in ORDER BY, an alias of JOIN
 * FETCH, and joins over several steps.
 */
final class Parser {
    private final Tokens tokens;
    private final ExpressionParser expressions;

    private Parser(String text) {
        this.tokens = new Tokens(text);
        this.expressions = new ExpressionParser(tokens, this);
    }

    /**
     * The tree of a text.
     *
     * @throws QueryFault where it is no statement, with what was expected
     */
    static Statement parse(String text) {
        Parser parser = new Parser(text);
        Statement statement = parser.statement();
        if (parser.tokens.peek().kind() != Token.Kind.END) {
            throw parser.tokens.expected(parser.afterStatement(statement));
        }
        return statement;
    }

    private String afterStatement(Statement statement) {
        if (!(statement instanceof Select select)) {
            return "the end";
        }
        if (!select.order().isEmpty()) {
            return "\",\" or the end";
        }
        if (select.having() != null) {
            return "AND, OR, ORDER BY or the end";
        }
        return select.where() == null ? "a variable, a join, WHERE, GROUP BY, ORDER BY or the end"
                : "AND, OR, GROUP BY, HAVING, ORDER BY or the end";
    }

    private Statement statement() {
        if (tokens.sees("SELECT")) {
            return select(false);
        }
        if (tokens.sees("UPDATE")) {
            return update();
        }
        if (tokens.sees("DELETE")) {
            return delete();
        }
        throw tokens.expected("SELECT, UPDATE or DELETE");
    }

    /** A SELECT statement, or a subquery. */
    Select select(boolean isSubquery) {
        int at = tokens.peek().at();
        tokens.expect("SELECT");
        boolean isDistinct = tokens.accept("DISTINCT");
        List<Item> items = items(isSubquery);
        tokens.expect("FROM");
        List<Source> sources = sources(isSubquery);
        Condition where = tokens.accept("WHERE") ? expressions.condition() : null;
        List<Value> groups = new ArrayList<>();
        if (tokens.accept("GROUP")) {
            tokens.expect("BY");
            do {
                groups.add(expressions.value());
            } while (tokens.acceptMark(","));
        }
        Condition having = tokens.accept("HAVING") ? expressions.condition() : null;
        List<Key> order = isSubquery ? List.of() : order();
        return new Select(at, isDistinct, items, sources, where, groups, having, order);
    }

    private List<Item> items(boolean isSubquery) {
        List<Item> items = new ArrayList<>();
        do {
            items.add(item(isSubquery));
        } while (!isSubquery && tokens.acceptMark(","));
        return items;
    }

    private Item item(boolean isSubquery) {
        Value value = tokens.sees("NEW") && !isSubquery ? construct() : selected();
        if (isSubquery) {
            return new Item(value, null);
        }
        boolean isNamed = tokens.accept("AS");
        String name = isNamed || tokens.seesVariable() ? tokens.variable("a result variable") : null;
        return new Item(value, name);
    }

    private Value selected() {
        if (!tokens.seesCall("OBJECT")) {
            return expressions.value();
        }
        tokens.next();
        tokens.expectMark("(");
        int at = tokens.peek().at();
        Path path = new Path(at, List.of(tokens.variable("an identification variable")));
        tokens.expectMark(")");
        return path;
    }

    private Value construct() {
        int at = tokens.next().at();
        StringBuilder name = new StringBuilder(tokens.name("the name of a class"));
        while (tokens.acceptMark(".")) {
            name.append('.').append(tokens.name("the name of a class"));
        }
        tokens.expectMark("(");
        List<Item> arguments = new ArrayList<>();
        do {
            Value value = selected();
            String alias = tokens.accept("AS") ? tokens.variable("a result variable") : null;
            arguments.add(new Item(value, alias));
        } while (tokens.acceptMark(","));
        tokens.expectMark(")");
        return new Construct(at, name.toString(), arguments);
    }

    // ---- FROM (chapter 4.4)

    private List<Source> sources(boolean isSubquery) {
        List<Source> sources = new ArrayList<>();
        sources.add(source(isSubquery));
        joins(sources);
        while (tokens.acceptMark(",")) {
            sources.add(source(true));
            joins(sources);
        }
        return sources;
    }

    private Source source(boolean takesPath) {
        int at = tokens.peek().at();
        if (takesPath && tokens.sees("IN") && (tokens.peek(1).isMark("(") || tokens.peek(2).isMark("."))) {
            tokens.next();
            boolean isClosed = tokens.acceptMark("(");
            Value path = expressions.joined();
            if (isClosed) {
                tokens.expectMark(")");
            }
            return new Derived(at, true, path, alias(), null);
        }
        if (tokens.seesCall("TREAT") || tokens.peek(1).isMark(".") && takesPath) {
            Value path = expressions.joined();
            return new Derived(at, false, path, alias(), null);
        }
        String entity = tokens.name("the name of an entity");
        return new Range(at, entity, alias(), null);
    }

    private String alias() {
        tokens.accept("AS");
        return tokens.variable("an identification variable");
    }

    private void joins(List<Source> sources) {
        while (tokens.sees("JOIN") || tokens.sees("LEFT") || tokens.sees("INNER")) {
            int at = tokens.peek().at();
            boolean isLeft = tokens.accept("LEFT");
            if (isLeft) {
                tokens.accept("OUTER");
            } else {
                tokens.accept("INNER");
            }
            tokens.expect("JOIN");
            boolean isFetch = tokens.accept("FETCH");
            if (!tokens.seesCall("TREAT") && !tokens.peek(1).isMark(".")) {
                tokens.name("a path, as v.relation");
                throw tokens.fault(tokens.peek().at(), "expected \".\": a join is along a relation, as v.relation; "
                        + "an entity of its own stands behind a comma in FROM, with its condition in WHERE");
            }
            Value path = expressions.joined();
            String name = isFetch && !tokens.sees("AS") && !tokens.seesVariable() ? null : alias();
            if (isFetch && tokens.sees("ON")) {
                throw tokens.fault(tokens.peek().at(), "a fetch join has no ON: it reads the whole relation");
            }
            Condition on = tokens.accept("ON") ? expressions.condition() : null;
            sources.add(new Join(at, isLeft, isFetch, path, name, null, on));
        }
    }

    private List<Key> order() {
        List<Key> order = new ArrayList<>();
        if (tokens.accept("ORDER")) {
            tokens.expect("BY");
            do {
                Value value = expressions.value();
                boolean isDescending = tokens.accept("DESC");
                if (!isDescending) {
                    tokens.accept("ASC");
                }
                if (tokens.sees("NULLS")) {
                    throw tokens.fault(tokens.peek().at(),
                            "NULLS FIRST and NULLS LAST are none of Jakarta Persistence 3.1;"
                            + " nulls come first, and with DESC last");
                }
                order.add(new Key(value, isDescending));
            } while (tokens.acceptMark(","));
        }
        return order;
    }

    // ---- UPDATE and DELETE (chapter 4.10)

    private Range changed() {
        int at = tokens.peek().at();
        String entity = tokens.name("the name of an entity");
        boolean isNamed = tokens.accept("AS");
        String name = isNamed || tokens.seesVariable() ? tokens.variable("an identification variable") : null;
        return new Range(at, entity, name, null);
    }

    private Update update() {
        int at = tokens.next().at();
        Range range = changed();
        tokens.expect("SET");
        List<Assignment> assignments = new ArrayList<>();
        do {
            Value path = expressions.path();
            tokens.expectMark("=");
            int from = tokens.peek().at();
            Value value = tokens.accept("NULL") ? new Literal(from, null) : expressions.value();
            assignments.add(new Assignment(path, value));
        } while (tokens.acceptMark(","));
        return new Update(at, range, assignments, tokens.accept("WHERE") ? expressions.condition() : null);
    }

    private Delete delete() {
        int at = tokens.next().at();
        tokens.expect("FROM");
        Range range = changed();
        return new Delete(at, range, tokens.accept("WHERE") ? expressions.condition() : null);
    }

    /** The aggregate that a word names, or null. */
    static Aggregate.Kind aggregate(Token token) {
        for (Aggregate.Kind kind : Aggregate.Kind.values()) {
            if (token.isWord(kind.name())) {
                return kind;
            }
        }
        return null;
    }
}
