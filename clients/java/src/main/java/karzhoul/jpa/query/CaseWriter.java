package karzhoul.jpa.query;

import java.util.ArrayList;
import java.util.List;
import karzhoul.jpa.model.Sort;
import karzhoul.jpa.query.Tree.Always;
import karzhoul.jpa.query.Tree.And;
import karzhoul.jpa.query.Tree.Case;
import karzhoul.jpa.query.Tree.Compare;
import karzhoul.jpa.query.Tree.Condition;
import karzhoul.jpa.query.Tree.Exists;
import karzhoul.jpa.query.Tree.In;
import karzhoul.jpa.query.Tree.InParameter;
import karzhoul.jpa.query.Tree.IsNull;
import karzhoul.jpa.query.Tree.Like;
import karzhoul.jpa.query.Tree.Literal;
import karzhoul.jpa.query.Tree.Member;
import karzhoul.jpa.query.Tree.Or;
import karzhoul.jpa.query.Tree.TypeIs;
import karzhoul.jpa.query.Tree.Value;
import karzhoul.jpa.query.Tree.When;
import karzhoul.jpa.query.Unit.Whole;
import karzhoul.jpa.query.ValueWriter.Written;

/**
 * Writes CASE in the program's language, where all that stands behind THEN and ELSE is of one unit, and each WHEN is a
 * test of values. What the program can't say of one the door computes.
 */
final class CaseWriter {
    private final ValueWriter values;
    private final ConditionWriter conditions;

    CaseWriter(ValueWriter values, ConditionWriter conditions) {
        this.values = values;
        this.conditions = conditions;
    }

    /**
     * A CASE in a unit.
     *
     * @param wanted the unit of what it stands beside; null where that tells none
     * @throws NotKept where the program can't say it
     */
    Written written(Case choice, Unit wanted) {
        Unit unit = unit(choice, wanted);
        Text text = Text.of("CASE");
        for (When when : choice.whens()) {
            Condition test = when.test() instanceof Condition condition ? condition
                    : new Compare(when.test().at(), "=", choice.operand(), (Value) when.test());
            checkTest(test);
            text.add(" WHEN ").add(conditions.condition(test)).add(" THEN ").add(result(when.then(), unit));
        }
        text.add(" ELSE ").add(result(choice.otherwise(), unit)).add(" END");
        return new Written(text, unit, 2);
    }

    /** That of all results that aren't constants, else the wanted one, else that of a literal. */
    private Unit unit(Case choice, Unit wanted) {
        List<Value> results = new ArrayList<>(choice.whens().stream().map(When::then).toList());
        results.add(choice.otherwise());
        Unit found = null;
        for (Value result : results) {
            if (!Binding.isConstant(result)) {
                Unit own = result instanceof Case inner ? unit(inner, wanted) : values.value(result).unit();
                if (own instanceof Unit.Thing || found != null && !found.isSame(own)) {
                    throw new NotKept(result.at(), "the values of a CASE are kept in different ways, or are entities");
                }
                found = own;
            }
        }
        if (found != null || wanted != null) {
            return found != null ? found : wanted;
        }
        Value literal = results.stream().filter(it -> it instanceof Literal one && one.value() != null).findFirst()
                .orElseThrow(() -> new NotKept(choice.at(), "no value of this CASE tells how it is kept"));
        return values.value(literal).unit();
    }

    private Text result(Value value, Unit unit) {
        return value instanceof Literal literal && literal.value() == null ? Text.of(nothing(value, unit))
                : values.in(value, unit).within(0);
    }

    /** A null of a unit: the language has no NULL there. */
    private static String nothing(Value value, Unit unit) {
        boolean isConverted = unit instanceof Unit.Kept kept && kept.codec().meaning().endsWith(" by a converter");
        if (isConverted) {
            throw new NotKept(value.at(), "NULL is handed to no converter");
        }
        if (unit instanceof Whole || unit instanceof Unit.Kept number && number.codec().sort() == Sort.INT) {
            return "NULLIF(1, 1)";
        } else if (unit instanceof Unit.Chars || unit instanceof Unit.Kept text && text.codec().sort() == Sort.TEXT) {
            return "NULLIF('', '')";
        }
        throw new NotKept(value.at(), "NULL isn't among what the program has of this kind");
    }

    private void checkTest(Condition test) {
        if (test instanceof Or or) {
            or.parts().forEach(this::checkTest);
        } else if (test instanceof And and) {
            and.parts().forEach(this::checkTest);
        } else if (!(test instanceof Compare || test instanceof In || test instanceof Like || test instanceof IsNull
                || test instanceof Always)) {
            throw new NotKept(test.at(), told(test) + " isn't among what a CASE of the program tests");
        }
    }

    private static String told(Condition test) {
        return test instanceof Exists ? "EXISTS" : test instanceof Member ? "MEMBER OF"
                : test instanceof InParameter ? "IN of a parameter alone" : test instanceof TypeIs ? "TYPE"
                : Visiting.hasBlock(test) ? "a subquery" : "this test";
    }
}
