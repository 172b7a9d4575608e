package karzhoul.jpa.query;

import java.util.ArrayList;
import java.util.List;
import karzhoul.jpa.query.Tree.Always;
import karzhoul.jpa.query.Tree.And;
import karzhoul.jpa.query.Tree.Between;
import karzhoul.jpa.query.Tree.Compare;
import karzhoul.jpa.query.Tree.Condition;
import karzhoul.jpa.query.Tree.EntityName;
import karzhoul.jpa.query.Tree.Exists;
import karzhoul.jpa.query.Tree.In;
import karzhoul.jpa.query.Tree.InParameter;
import karzhoul.jpa.query.Tree.InSelect;
import karzhoul.jpa.query.Tree.IsEmpty;
import karzhoul.jpa.query.Tree.IsNull;
import karzhoul.jpa.query.Tree.Like;
import karzhoul.jpa.query.Tree.Member;
import karzhoul.jpa.query.Tree.Not;
import karzhoul.jpa.query.Tree.Or;
import karzhoul.jpa.query.Tree.Parameter;
import karzhoul.jpa.query.Tree.Quantified;
import karzhoul.jpa.query.Tree.TypeIs;
import karzhoul.jpa.query.Tree.TypeOf;
import karzhoul.jpa.query.Tree.Value;

/**
 * Brings each NOT to the tests under it, and leaves no NOT, BETWEEN, IN of a block, or comparison of TYPE. In three
 * truths NOT of AND is OR of NOTs, and NOT of a test is the opposite test: both are unknown together. Behind this pass
 * nothing turns a truth around, so a test may be replaced by another one that is true for the same rows, whether that
 * is false or unknown for the others.
 */
final class Negation extends Rewriting {
    @Override
    Condition condition(Condition condition) {
        return with(condition, false);
    }

    private Condition with(Condition condition, boolean isNot) {
        if (condition instanceof Not not) {
            return with(not.condition(), !isNot);
        } else if (condition instanceof Or or) {
            return joined(or.at(), or.parts(), !isNot, isNot);
        } else if (condition instanceof And and) {
            return joined(and.at(), and.parts(), isNot, isNot);
        } else if (condition instanceof Compare compare) {
            return compared(compare, isNot);
        } else if (condition instanceof Between of) {
            boolean outside = of.isNot() != isNot;
            Condition low = new Compare(of.at(), outside ? "<" : ">=", value(of.value()), value(of.low()));
            Condition high = new Compare(of.at(), outside ? ">" : "<=", value(of.value()), value(of.high()));
            return outside ? new Or(of.at(), List.of(low, high)) : new And(of.at(), List.of(low, high));
        } else if (condition instanceof Quantified of) {
            return new Quantified(of.at(), isNot ? opposite(of.sign()) : of.sign(), value(of.left()),
                    of.isAll() != isNot,
                    select(of.select()));
        } else if (condition instanceof InSelect of) {
            boolean none = of.isNot() != isNot;
            return new Quantified(of.at(), none ? "<>" : "=", value(of.value()), none, select(of.select()));
        }
        return test(conditionWithin(condition), isNot);
    }

    /** AND or OR of parts, one within one of its kind brought up into it. */
    private Condition joined(int at, List<Condition> parts, boolean isOr, boolean isNot) {
        List<Condition> all = new ArrayList<>();
        for (Condition part : parts) {
            Condition found = with(part, isNot);
            if (isOr && found instanceof Or or) {
                all.addAll(or.parts());
            } else if (!isOr && found instanceof And and) {
                all.addAll(and.parts());
            } else {
                all.add(found);
            }
        }
        return isOr ? new Or(at, all) : new And(at, all);
    }

    private Condition compared(Compare compare, boolean isNot) {
        String sign = isNot ? opposite(compare.sign()) : compare.sign();
        Value left = value(compare.left());
        Value right = value(compare.right());
        if (left instanceof TypeOf of && isClass(right)) {
            return new TypeIs(compare.at(), sign.equals("<>"), of.operand(), List.of(right));
        }
        if (right instanceof TypeOf of && isClass(left)) {
            return new TypeIs(compare.at(), sign.equals("<>"), of.operand(), List.of(left));
        }
        return new Compare(compare.at(), sign, left, right);
    }

    private static boolean isClass(Value value) {
        return value instanceof EntityName || value instanceof Parameter;
    }

    private static Condition test(Condition test, boolean isNot) {
        if (test instanceof In of) {
            if (of.value() instanceof TypeOf type) {
                return new TypeIs(of.at(), of.isNot() != isNot, type.operand(), of.values());
            }
            return new In(of.at(), of.isNot() != isNot, of.value(), of.values());
        } else if (test instanceof InParameter of) {
            if (of.value() instanceof TypeOf type) {
                return new TypeIs(of.at(), of.isNot() != isNot, type.operand(), List.of(of.list()));
            }
            return new InParameter(of.at(), of.isNot() != isNot, of.value(), of.list());
        } else if (test instanceof Like of) {
            return new Like(of.at(), of.isNot() != isNot, of.value(), of.pattern(), of.escape());
        } else if (test instanceof IsNull of) {
            return new IsNull(of.at(), of.isNot() != isNot, of.value());
        } else if (test instanceof IsEmpty of) {
            return new IsEmpty(of.at(), of.isNot() != isNot, of.path());
        } else if (test instanceof Member of) {
            return new Member(of.at(), of.isNot() != isNot, of.value(), of.path());
        } else if (test instanceof Exists of) {
            return new Exists(of.at(), of.isNot() != isNot, of.select());
        }
        Always always = (Always) test;
        return new Always(always.at(), always.isTrue() != isNot);
    }

    /** The comparison that is true where this one is false. */
    static String opposite(String sign) {
        return switch (sign) {
            case "=" -> "<>";
            case "<>" -> "=";
            case "<" -> ">=";
            case "<=" -> ">";
            case ">" -> "<=";
            default -> "<";
        };
    }
}
