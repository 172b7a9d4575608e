package karzhoul.jpa.query;

import java.util.ArrayList;
import java.util.List;
import karzhoul.jpa.query.Tree.And;
import karzhoul.jpa.query.Tree.Between;
import karzhoul.jpa.query.Tree.Compare;
import karzhoul.jpa.query.Tree.Condition;
import karzhoul.jpa.query.Tree.Embedded;
import karzhoul.jpa.query.Tree.Exists;
import karzhoul.jpa.query.Tree.In;
import karzhoul.jpa.query.Tree.InParameter;
import karzhoul.jpa.query.Tree.InSelect;
import karzhoul.jpa.query.Tree.IsEmpty;
import karzhoul.jpa.query.Tree.IsNull;
import karzhoul.jpa.query.Tree.Like;
import karzhoul.jpa.query.Tree.Literal;
import karzhoul.jpa.query.Tree.Member;
import karzhoul.jpa.query.Tree.Not;
import karzhoul.jpa.query.Tree.Or;
import karzhoul.jpa.query.Tree.Quantified;
import karzhoul.jpa.query.Tree.TypeOf;
import karzhoul.jpa.query.Tree.Value;

/** Judges conditions (chapter 4.6). */
final class ConditionTyper {
    private final Typer typer;

    ConditionTyper(Typer typer) {
        this.typer = typer;
    }

    void check(Condition condition, boolean takesAggregates) {
        if (condition instanceof Or or) {
            or.parts().forEach(part -> check(part, takesAggregates));
        } else if (condition instanceof And and) {
            and.parts().forEach(part -> check(part, takesAggregates));
        } else if (condition instanceof Not not) {
            check(not.condition(), takesAggregates);
        } else if (condition instanceof Compare compare) {
            compared(compare.sign(), compare.left(), compare.right(), takesAggregates);
        } else if (condition instanceof Between between) {
            between(between, takesAggregates);
        } else if (condition instanceof Like like) {
            like(like, takesAggregates);
        } else if (condition instanceof IsNull isNull) {
            if (!(isNull.value() instanceof Embedded)) {
                typer.typed(isNull.value(), takesAggregates);
            }
        } else if (condition instanceof IsEmpty isEmpty) {
            typer.collection(isEmpty.path(), "IS EMPTY");
        } else if (condition instanceof Member member) {
            member(member);
        } else {
            block(condition, takesAggregates);
        }
    }

    private void block(Condition condition, boolean takesAggregates) {
        if (condition instanceof In in) {
            List<Value> all = new ArrayList<>(List.of(in.value()));
            all.addAll(in.values());
            typer.alike(all, takesAggregates);
        } else if (condition instanceof InParameter in) {
            Type type = typer.typed(in.value(), takesAggregates);
            typer.expectAll(in.list(), type);
        } else if (condition instanceof InSelect in) {
            typer.select(in.select());
            against("=", in.value(), in.select(), takesAggregates);
        } else if (condition instanceof Quantified quantified) {
            typer.select(quantified.select());
            against(quantified.sign(), quantified.left(), quantified.select(), takesAggregates);
        } else if (condition instanceof Exists exists) {
            typer.select(exists.select());
        }
    }

    private void against(String sign, Value left, Tree.Select select, boolean takesAggregates) {
        Type type = typer.typed(left, takesAggregates);
        Type item = Types.of(select.items().get(0));
        typer.expect(left, item);
        judge(left.at(), sign, type, item);
    }

    /** A comparison of two values. */
    void compared(String sign, Value left, Value right, boolean takesAggregates) {
        Type a = typer.typed(left, takesAggregates);
        Type b = typer.typed(right, takesAggregates);
        if (isNothing(left) || isNothing(right)) {
            throw typer.fault(left.at(), "nothing is equal to NULL; IS NULL asks for it");
        }
        if (left instanceof TypeOf || right instanceof TypeOf) {
            typer.expect(left, Type.CLASS);
            typer.expect(right, Type.CLASS);
        } else {
            typer.expect(left, b);
            typer.expect(right, a);
        }
        judge(left.at(), sign, a, b);
    }

    private static boolean isNothing(Value value) {
        return value instanceof Literal literal && literal.value() == null;
    }

    private void judge(int at, String sign, Type a, Type b) {
        if (!a.goesWith(b)) {
            throw typer.fault(at, a.told() + " is compared with " + b.told());
        }
        Type known = a.isKnown() ? a : b;
        if (!sign.equals("=") && !sign.equals("<>") && !known.isOrdered()) {
            throw typer.fault(at, "\"" + sign + "\" compares what has an order, and this is " + known.told()
                    + "; = and <> do");
        }
    }

    private void between(Between between, boolean takesAggregates) {
        List<Value> all = List.of(between.value(), between.low(), between.high());
        typer.alike(all, takesAggregates);
        for (Value value : all) {
            Type type = Types.of(value);
            if (!type.isOrdered()) {
                throw typer.fault(value.at(), "BETWEEN compares what has an order, and this is " + type.told());
            }
        }
    }

    private void like(Like like, boolean takesAggregates) {
        string(like.value(), takesAggregates);
        string(like.pattern(), takesAggregates);
        if (like.escape() == null) {
            return;
        }
        string(like.escape(), takesAggregates);
        if (like.escape() instanceof Literal literal && !(literal.value() instanceof String escape
                && escape.codePointCount(0, escape.length()) == 1)) {
            throw typer.fault(like.escape().at(), "expected one character after ESCAPE");
        }
    }

    private void string(Value value, boolean takesAggregates) {
        Type type = typer.typed(value, takesAggregates);
        typer.expect(value, Type.STRING);
        if (type.isKnown() && type.kind() != Type.Kind.STRING) {
            throw typer.fault(value.at(), "LIKE takes texts, and this is " + type.told());
        }
    }

    private void member(Member member) {
        typer.collection(member.path(), "MEMBER OF");
        Type type = typer.typed(member.value(), false);
        Type target = Type.of(Typer.path(member.path()).entity());
        typer.expect(member.value(), target);
        if (!type.goesWith(target)) {
            throw typer.fault(member.value().at(), "the members of \"" + Typer.path(member.path()) + "\" are of " + target.told()
                    + ", and this is " + type.told());
        }
    }
}
