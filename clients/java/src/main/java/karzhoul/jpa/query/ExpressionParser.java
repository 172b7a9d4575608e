package karzhoul.jpa.query;

import java.util.ArrayList;
import java.util.Arrays;
import java.util.List;
import java.util.Locale;
import java.util.Set;
import karzhoul.jpa.query.Tree.Aggregate;
import karzhoul.jpa.query.Tree.And;
import karzhoul.jpa.query.Tree.Arithmetic;
import karzhoul.jpa.query.Tree.Between;
import karzhoul.jpa.query.Tree.Call;
import karzhoul.jpa.query.Tree.Case;
import karzhoul.jpa.query.Tree.Compare;
import karzhoul.jpa.query.Tree.Condition;
import karzhoul.jpa.query.Tree.Exists;
import karzhoul.jpa.query.Tree.Expression;
import karzhoul.jpa.query.Tree.In;
import karzhoul.jpa.query.Tree.InParameter;
import karzhoul.jpa.query.Tree.InSelect;
import karzhoul.jpa.query.Tree.IsEmpty;
import karzhoul.jpa.query.Tree.IsNull;
import karzhoul.jpa.query.Tree.Like;
import karzhoul.jpa.query.Tree.Literal;
import karzhoul.jpa.query.Tree.MapPart;
import karzhoul.jpa.query.Tree.Member;
import karzhoul.jpa.query.Tree.Not;
import karzhoul.jpa.query.Tree.Now;
import karzhoul.jpa.query.Tree.Or;
import karzhoul.jpa.query.Tree.Parameter;
import karzhoul.jpa.query.Tree.Path;
import karzhoul.jpa.query.Tree.Quantified;
import karzhoul.jpa.query.Tree.Scalar;
import karzhoul.jpa.query.Tree.Signed;
import karzhoul.jpa.query.Tree.Treated;
import karzhoul.jpa.query.Tree.TypeOf;
import karzhoul.jpa.query.Tree.Value;
import karzhoul.jpa.query.Tree.When;

/** Reads conditions (chapter 4.6) and values (chapter 4.7). */
final class ExpressionParser {
    private static final Set<String> SIGNS = Set.of("=", "<>", "<", "<=", ">", ">=");
    private static final Set<String> SIDES = Set.of("LEADING", "TRAILING", "BOTH");
    /** Deeper than any statement is, and less than a thread's stack takes. */
    private static final int DEEPEST = 200;

    private final Tokens tokens;
    private final Parser statements;
    private int depth;

    ExpressionParser(Tokens tokens, Parser statements) {
        this.tokens = tokens;
        this.statements = statements;
    }

    /** A condition. */
    Condition condition() {
        int at = tokens.peek().at();
        Expression found = or();
        if (found instanceof Condition condition) {
            return condition;
        }
        if (tokens.peek().kind() == Token.Kind.END || tokens.seesMark(")") || tokens.peek().kind() == Token.Kind.WORD) {
            throw tokens.expected("a comparison, BETWEEN, IN, LIKE, IS or MEMBER OF");
        }
        throw tokens.fault(at, "expected a condition, found a value");
    }

    /** A value. */
    Value value() {
        int at = tokens.peek().at();
        return asValue(sum(), at);
    }

    private Value asValue(Expression found, int at) {
        if (found instanceof Value value) {
            return value;
        }
        throw tokens.fault(at, "expected a value, found a condition");
    }

    private Condition asCondition(Expression found, int at) {
        if (found instanceof Condition condition) {
            return condition;
        }
        throw tokens.fault(at, "expected a condition, found a value");
    }

    // ---- conditions

    private Expression or() {
        int at = tokens.peek().at();
        Expression first = and();
        if (tokens.sees("OR")) {
            List<Condition> parts = new ArrayList<>();
            parts.add(asCondition(first, at));
            while (tokens.accept("OR")) {
                int from = tokens.peek().at();
                parts.add(asCondition(and(), from));
            }
            return new Or(at, parts);
        }
        return first;
    }

    private Expression and() {
        int at = tokens.peek().at();
        Expression first = not();
        if (tokens.sees("AND")) {
            List<Condition> parts = new ArrayList<>();
            parts.add(asCondition(first, at));
            while (tokens.accept("AND")) {
                int from = tokens.peek().at();
                parts.add(asCondition(not(), from));
            }
            return new And(at, parts);
        }
        return first;
    }

    private Expression not() {
        int at = tokens.peek().at();
        if (!tokens.accept("NOT")) {
            return test();
        }
        deeper();
        int from = tokens.peek().at();
        Condition condition = asCondition(not(), from);
        depth--;
        return new Not(at, condition);
    }

    private Expression test() {
        int at = tokens.peek().at();
        if (tokens.sees("EXISTS")) {
            tokens.next();
            return new Exists(at, false, subquery());
        }
        Expression left = sum();
        if (left instanceof Condition) {
            return left;
        }
        return tested(at, (Value) left);
    }

    private Expression tested(int at, Value left) {
        if (tokens.peek().kind() == Token.Kind.MARK && SIGNS.contains(tokens.peek().text())) {
            return compared(at, left, tokens.next().text());
        }
        int mark = tokens.peek().at();
        boolean isNot = tokens.sees("NOT") && tokens.next() != null;
        if (tokens.accept("BETWEEN")) {
            Value low = value();
            tokens.expect("AND");
            return new Between(at, isNot, left, low, value());
        }
        if (tokens.accept("IN")) {
            return among(at, isNot, left);
        }
        if (tokens.accept("LIKE")) {
            Value pattern = value();
            return new Like(at, isNot, left, pattern, tokens.accept("ESCAPE") ? value() : null);
        }
        if (tokens.accept("MEMBER")) {
            tokens.accept("OF");
            return new Member(at, isNot, left, path());
        }
        if (isNot) {
            throw tokens.expected("BETWEEN, IN, LIKE or MEMBER OF after NOT");
        }
        return tokens.accept("IS") ? is(at, left) : left;
    }

    private Condition is(int at, Value left) {
        boolean isNot = tokens.accept("NOT");
        if (tokens.accept("NULL")) {
            return new IsNull(at, isNot, left);
        }
        if (tokens.accept("EMPTY")) {
            return new IsEmpty(at, isNot, left);
        }
        throw tokens.expected(isNot ? "NULL or EMPTY" : "NULL, EMPTY or NOT");
    }

    private Condition compared(int at, Value left, String sign) {
        boolean isAll = tokens.seesCall("ALL");
        if (isAll || tokens.seesCall("ANY") || tokens.seesCall("SOME")) {
            tokens.next();
            return new Quantified(at, sign, left, isAll, subquery());
        }
        if (tokens.sees("NULL")) {
            throw tokens.fault(tokens.peek().at(), "expected a value: nothing is equal to NULL, IS NULL asks for it");
        }
        return new Compare(at, sign, left, value());
    }

    private Condition among(int at, boolean isNot, Value left) {
        if (tokens.peek().kind() == Token.Kind.PARAMETER) {
            return new InParameter(at, isNot, left, parameter());
        }
        if (tokens.seesMark("(") && tokens.peek(1).isWord("SELECT")) {
            return new InSelect(at, isNot, left, subquery());
        }
        if (!tokens.seesMark("(")) {
            throw tokens.expected("\"(\" or a parameter after IN");
        }
        tokens.next();
        List<Value> values = new ArrayList<>();
        do {
            values.add(value());
        } while (tokens.acceptMark(","));
        tokens.expectMark(")");
        if (values.size() == 1 && values.get(0) instanceof Parameter list) {
            return new InParameter(at, isNot, left, list);
        }
        return new In(at, isNot, left, values);
    }

    private Tree.Select subquery() {
        tokens.expectMark("(");
        Tree.Select select = statements.select(true);
        tokens.expectMark(")");
        return select;
    }

    // ---- values

    private void deeper() {
        if (++depth > DEEPEST) {
            throw tokens.fault(tokens.peek().at(), "more than " + DEEPEST + " parentheses and NOTs within one another");
        }
    }

    private Expression sum() {
        deeper();
        int at = tokens.peek().at();
        Expression left = product();
        for (int terms = 1; tokens.seesMark("+") || tokens.seesMark("-"); terms++) {
            checkTerms(terms);
            char sign = tokens.next().text().charAt(0);
            int from = tokens.peek().at();
            left = new Arithmetic(at, sign, asValue(left, at), asValue(product(), from));
        }
        depth--;
        return left;
    }

    private void checkTerms(int terms) {
        if (terms > DEEPEST) {
            throw tokens.fault(tokens.peek().at(), "more than " + DEEPEST + " values in one sum or product");
        }
    }

    private Expression product() {
        int at = tokens.peek().at();
        Expression left = signed();
        for (int terms = 1; tokens.seesMark("*") || tokens.seesMark("/"); terms++) {
            checkTerms(terms);
            char sign = tokens.next().text().charAt(0);
            int from = tokens.peek().at();
            left = new Arithmetic(at, sign, asValue(left, at), asValue(signed(), from));
        }
        return left;
    }

    private Expression signed() {
        int at = tokens.peek().at();
        if (tokens.seesMark("+") || tokens.seesMark("-")) {
            boolean isMinus = tokens.next().isMark("-");
            int from = tokens.peek().at();
            return new Signed(at, isMinus, asValue(atom(), from));
        }
        return atom();
    }

    private Expression atom() {
        Token token = tokens.peek();
        switch (token.kind()) {
            case NUMBER, STRING, TEMPORAL:
                return new Literal(tokens.next().at(), token.value());
            case PARAMETER:
                return parameter();
            case MARK:
                return parenthesis();
            case WORD:
                return word(token);
            default:
                throw tokens.expected("a value");
        }
    }

    private Parameter parameter() {
        Token token = tokens.next();
        return new Parameter(token.at(), token.value());
    }

    private Expression parenthesis() {
        if (!tokens.seesMark("(")) {
            throw tokens.expected("a value");
        }
        int at = tokens.next().at();
        if (tokens.sees("SELECT")) {
            Tree.Select select = statements.select(true);
            tokens.expectMark(")");
            return new Scalar(at, select);
        }
        Expression inner = or();
        tokens.expectMark(")");
        return inner;
    }

    private Value word(Token token) {
        if (token.isWord("CASE")) {
            return caseOf();
        }
        if (token.isWord("TRUE") || token.isWord("FALSE")) {
            return new Literal(tokens.next().at(), token.isWord("TRUE"));
        }
        if (token.isWord("NULL")) {
            return new Literal(tokens.next().at(), null);
        }
        Now now = now(token);
        if (now != null) {
            return now;
        }
        if (tokens.peek(1).isMark("(")) {
            return called(token);
        }
        if (Tokens.isReserved(token.text()) && !tokens.peek(1).isMark(".")) {
            throw tokens.expected("a value");
        }
        return path();
    }

    private Now now(Token token) {
        if (token.isWord("LOCAL") && !tokens.peek(1).isMark(".")) {
            for (String sort : List.of("DATE", "TIME", "DATETIME")) {
                if (tokens.peek(1).isWord(sort)) {
                    tokens.next();
                    tokens.next();
                    return new Now(token.at(), Now.Kind.valueOf("LOCAL_" + sort));
                }
            }
        }
        if (token.isWord("CURRENT_DATE") || token.isWord("CURRENT_TIME") || token.isWord("CURRENT_TIMESTAMP")) {
            tokens.next();
            return new Now(token.at(), Now.Kind.valueOf(token.text().toUpperCase(Locale.ROOT)));
        }
        return null;
    }

    /** A path: names with dots between them. */
    Value path() {
        if (tokens.seesCall("TREAT") || tokens.seesCall("KEY") || tokens.seesCall("VALUE")
                || tokens.seesCall("ENTRY")) {
            return called(tokens.peek());
        }
        int at = tokens.peek().at();
        List<String> names = new ArrayList<>();
        names.add(tokens.name("a path"));
        return new Path(at, behind(names));
    }

    private List<String> behind(List<String> names) {
        while (tokens.acceptMark(".")) {
            names.add(tokens.name("a name after \".\""));
        }
        return List.copyOf(names);
    }

    /** What a join is along: a path, or TREAT of one. */
    Value joined() {
        return path();
    }

    private Value called(Token token) {
        Aggregate.Kind aggregate = Parser.aggregate(token);
        if (aggregate != null) {
            return aggregated(aggregate);
        }
        String name = token.text().toUpperCase(Locale.ROOT);
        tokens.next();
        tokens.expectMark("(");
        Value found = switch (name) {
            case "TRIM" -> trimmed(token.at());
            case "EXTRACT" -> extracted(token.at());
            case "TYPE" -> typeOf(token.at());
            case "TREAT" -> treated(token.at());
            case "KEY", "VALUE", "ENTRY", "INDEX" -> mapPart(token.at(), name);
            case "FUNCTION" -> throw QueryFault.refusal(tokens.text, token.at(),
                    "FUNCTION isn't served: there is no database with functions of its own");
            default -> plain(token, Function.named(name));
        };
        return found;
    }

    private Value typeOf(int at) {
        Value operand = value();
        tokens.expectMark(")");
        return new TypeOf(at, operand);
    }

    private Value plain(Token token, Function function) {
        if (function == null) {
            throw tokens.fault(token.at(), token.told() + " is no function" + Nearest.hint(token.text(),
                    Arrays.stream(Function.values()).map(Enum::name).toList()));
        }
        List<Value> arguments = new ArrayList<>();
        do {
            arguments.add(value());
        } while (tokens.acceptMark(","));
        if (arguments.size() < function.least) {
            throw tokens.expected("\",\": " + function + " takes at least " + function.least + " values");
        }
        if (arguments.size() > function.most) {
            throw tokens.fault(arguments.get(function.most).at(), "expected \")\": " + function + " takes at most "
                    + function.most + (function.most == 1 ? " value" : " values"));
        }
        tokens.expectMark(")");
        return new Call(token.at(), function, arguments);
    }

    private Value aggregated(Aggregate.Kind kind) {
        int at = tokens.next().at();
        tokens.expectMark("(");
        boolean isDistinct = tokens.accept("DISTINCT");
        if (kind == Aggregate.Kind.COUNT && tokens.seesMark("*")) {
            throw tokens.fault(tokens.peek().at(),
                    "expected a path: COUNT(*) is none of Jakarta Persistence; write COUNT(v)");
        }
        Value operand = value();
        tokens.expectMark(")");
        return new Aggregate(at, kind, isDistinct, operand);
    }

    private Value trimmed(int at) {
        String side = "BOTH";
        Value character = new Literal(at, " ");
        boolean isSided = false;
        for (String word : SIDES) {
            if (tokens.accept(word)) {
                side = word;
                isSided = true;
                break;
            }
        }
        if (isSided && tokens.accept("FROM")) {
            return trim(at, side, character, value());
        }
        Value first = value();
        if (tokens.accept("FROM")) {
            return trim(at, side, first, value());
        }
        if (isSided) {
            throw tokens.expected("FROM");
        }
        return trim(at, side, character, first);
    }

    private Value trim(int at, String side, Value character, Value text) {
        tokens.expectMark(")");
        return new Call(at, Function.TRIM, List.of(new Literal(at, side), character, text));
    }

    private Value extracted(int at) {
        int from = tokens.peek().at();
        String field = tokens.name("YEAR, QUARTER, MONTH, WEEK, DAY, HOUR, MINUTE, SECOND, DATE or TIME")
                .toUpperCase(Locale.ROOT);
        tokens.expect("FROM");
        Value time = value();
        tokens.expectMark(")");
        return new Call(at, Function.EXTRACT, List.of(new Literal(from, field), time));
    }

    private Value treated(int at) {
        Value path = path();
        tokens.expect("AS");
        String entity = tokens.name("the name of an entity");
        tokens.expectMark(")");
        return new Treated(at, path, entity, behind(new ArrayList<>()));
    }

    private Value mapPart(int at, String part) {
        String variable = tokens.variable("an identification variable");
        tokens.expectMark(")");
        return new MapPart(at, part, variable, behind(new ArrayList<>()));
    }

    private Value caseOf() {
        int at = tokens.next().at();
        Value operand = tokens.sees("WHEN") ? null : value();
        List<When> whens = new ArrayList<>();
        while (tokens.accept("WHEN")) {
            Expression test = operand == null ? condition() : value();
            tokens.expect("THEN");
            whens.add(new When(test, value()));
        }
        if (whens.isEmpty()) {
            throw tokens.expected("WHEN");
        }
        tokens.expect("ELSE");
        Value otherwise = value();
        tokens.expect("END");
        return new Case(at, operand, whens, otherwise);
    }
}
