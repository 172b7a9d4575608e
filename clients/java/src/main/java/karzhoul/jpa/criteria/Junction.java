package karzhoul.jpa.criteria;

import jakarta.persistence.criteria.Expression;
import java.util.ArrayList;
import java.util.List;
import karzhoul.jpa.query.Tree;

/** AND or OR of conditions; AND of none is true, and OR of none is false. */
final class Junction extends Condition {
    private final BooleanOperator operator;
    private final List<Condition> conditions;

    Junction(BooleanOperator operator, List<Condition> conditions) {
        this.operator = operator;
        this.conditions = List.copyOf(conditions);
    }

    /** That all of these are true. */
    @SafeVarargs
    static Condition all(Expression<Boolean>... expressions) {
        return of(BooleanOperator.AND, expressions);
    }

    @SafeVarargs
    static Condition of(BooleanOperator operator, Expression<Boolean>... expressions) {
        List<Condition> conditions = new ArrayList<>();
        for (Expression<Boolean> expression : expressions) {
            conditions.add(Condition.that(expression));
        }
        return new Junction(operator, conditions);
    }

    @Override
    Tree.Condition write(Writing to) {
        int at = to.at();
        boolean isAnd = operator == BooleanOperator.AND;
        List<Condition> flat = new ArrayList<>();
        flatten(flat);
        if (flat.isEmpty()) {
            to.add(isAnd ? "1 = 1" : "1 = 0");
            return new Tree.Always(at, isAnd);
        }
        if (flat.size() == 1) {
            return to.condition(flat.get(0));
        }
        List<Tree.Condition> written = new ArrayList<>();
        to.add("(");
        for (Condition condition : flat) {
            to.add(written.isEmpty() ? "" : " " + operator + " ");
            written.add(to.condition(condition));
        }
        to.add(")");
        return isAnd ? new Tree.And(at, written) : new Tree.Or(at, written);
    }

    private void flatten(List<Condition> flat) {
        for (Condition condition : conditions) {
            if (condition instanceof Junction junction && junction.operator == operator) {
                junction.flatten(flat);
            } else {
                flat.add(condition);
            }
        }
    }

    @Override
    List<Term<?>> parts() {
        return new ArrayList<>(conditions);
    }

    @Override
    public BooleanOperator getOperator() {
        return operator;
    }

    @Override
    public List<Expression<Boolean>> getExpressions() {
        return new ArrayList<>(conditions);
    }
}
