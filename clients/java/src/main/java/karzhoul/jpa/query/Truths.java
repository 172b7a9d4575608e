package karzhoul.jpa.query;

import java.util.Collection;
import java.util.HashSet;
import java.util.IdentityHashMap;
import java.util.List;
import java.util.Map;
import java.util.Set;
import java.util.regex.Pattern;
import karzhoul.jpa.query.Evaluator.Frame;
import karzhoul.jpa.query.Tree.Always;
import karzhoul.jpa.query.Tree.And;
import karzhoul.jpa.query.Tree.ByRows;
import karzhoul.jpa.query.Tree.Compare;
import karzhoul.jpa.query.Tree.Condition;
import karzhoul.jpa.query.Tree.EntityName;
import karzhoul.jpa.query.Tree.Exists;
import karzhoul.jpa.query.Tree.In;
import karzhoul.jpa.query.Tree.InParameter;
import karzhoul.jpa.query.Tree.IsNull;
import karzhoul.jpa.query.Tree.Like;
import karzhoul.jpa.query.Tree.Or;
import karzhoul.jpa.query.Tree.Parameter;
import karzhoul.jpa.query.Tree.Quantified;
import karzhoul.jpa.query.Tree.Scalar;
import karzhoul.jpa.query.Tree.Select;
import karzhoul.jpa.query.Tree.TypeIs;
import karzhoul.jpa.query.Tree.TypeOf;
import karzhoul.jpa.query.Tree.Value;

/** Decides conditions over the program's rows, in three truths; null is unknown (chapter 4.11, tables of truth). */
final class Truths {
    private final Evaluator evaluator;
    private final Map<InParameter, Set<Object>> lists = new IdentityHashMap<>();

    Truths(Evaluator evaluator) {
        this.evaluator = evaluator;
    }

    Boolean of(Condition condition, Frame frame) {
        if (condition instanceof And and) {
            return joined(and.parts(), false, frame);
        } else if (condition instanceof Or or) {
            return joined(or.parts(), true, frame);
        } else if (condition instanceof Compare of) {
            return compared(of.sign(), of.left(), of.right(), frame);
        } else if (condition instanceof In of) {
            return turned(of.isNot(), among(of, frame));
        } else if (condition instanceof InParameter of) {
            return turned(of.isNot(), amongAll(of, frame));
        } else if (condition instanceof Like of) {
            return turned(of.isNot(), like(of, frame));
        } else if (condition instanceof IsNull of) {
            Object value = evaluator.unit(of.value()) != null ? evaluator.column(of.value(), frame)
                    : evaluator.value(of.value(), frame);
            return (value == null) != of.isNot();
        } else if (condition instanceof TypeIs of) {
            return typeIs(of, frame);
        } else if (condition instanceof ByRows of) {
            return of(of.condition(), frame);
        } else if (condition instanceof Exists of) {
            return evaluator.answers(of.select(), frame, true).isEmpty() == of.isNot();
        } else if (condition instanceof Quantified of) {
            return quantified(of, frame);
        } else if (condition instanceof Always of) {
            return of.isTrue();
        }
        throw new IllegalStateException("no way to decide " + condition);
    }

    private static Boolean turned(boolean isNot, Boolean truth) {
        return truth == null ? null : (Boolean) (truth != isNot);
    }

    /** A comparison with ALL or ANY of a block: AND or OR of those with its rows. */
    private Boolean quantified(Quantified of, Frame frame) {
        Boolean found = of.isAll();
        for (SelectPlan.Answer answer : evaluator.answers(of.select(), frame, false)) {
            Boolean truth = compared(of.sign(), of.left(), of.select(), answer, frame);
            if (truth == null) {
                found = null;
            } else if (truth != of.isAll()) {
                return truth;
            }
        }
        return found;
    }

    /** A comparison with what a block answers: as the program has both, where they are kept in one way. */
    private Boolean compared(String sign, Value left, Select block, SelectPlan.Answer answer, Frame frame) {
        if (answer == null) {
            return null;
        }
        Unit unit = evaluator.unit(block);
        if (unit instanceof Unit.Kept && isIn(unit, left)) {
            return compared(sign, column(unit, left, frame), answer.column());
        }
        return compared(sign, evaluator.value(left, frame), answer.value());
    }

    /** OR is true where one is, AND false where one is; else unknown where one is. */
    private Boolean joined(List<Condition> parts, boolean isOr, Frame frame) {
        Boolean found = !isOr;
        for (Condition part : parts) {
            Boolean truth = of(part, frame);
            if (truth == null) {
                found = null;
            } else if (truth == isOr) {
                return isOr;
            }
        }
        return found;
    }

    /** A comparison of two values: as the program has them, where it has one of them in a form of its own. */
    Boolean compared(String sign, Value left, Value right, Frame frame) {
        if (right instanceof Scalar block) {
            return compared(sign, left, block.select(), evaluator.one(block.select(), frame), frame);
        } else if (left instanceof Scalar) {
            return compared(ConditionWriter.turned(sign), right, left, frame);
        }
        Unit unit = evaluator.unit(left) instanceof Unit.Kept kept ? kept
                : evaluator.unit(right) instanceof Unit.Kept kept ? kept : null;
        if (unit != null && isIn(unit, left) && isIn(unit, right)) {
            return compared(sign, column(unit, left, frame), column(unit, right, frame));
        }
        return compared(sign, evaluator.value(left, frame), evaluator.value(right, frame));
    }

    private boolean isIn(Unit unit, Value value) {
        Unit its = evaluator.unit(value);
        return its != null ? its.isSame(unit) : Binding.isConstant(value);
    }

    private Object column(Unit unit, Value value, Frame frame) {
        if (evaluator.unit(value) != null) {
            return evaluator.column(value, frame);
        }
        Object constant = evaluator.binding().constant(value);
        return constant == null ? null : evaluator.binding().kept(((Unit.Kept) unit).codec(), value, constant);
    }

    private Boolean compared(String sign, Object left, Object right) {
        if (left == null || right == null) {
            return null;
        }
        int order = order(left, right);
        return switch (sign) {
            case "=" -> order == 0;
            case "<>" -> order != 0;
            case "<" -> order < 0;
            case "<=" -> order <= 0;
            case ">" -> order > 0;
            default -> order >= 0;
        };
    }

    private int order(Object left, Object right) {
        if (left instanceof Asking.Ref || right instanceof Asking.Ref) {
            Binding binding = evaluator.binding();
            Value unnamed = new EntityName(0, null);
            Asking.Ref one = binding.thing(unnamed, left);
            Asking.Ref other = binding.thing(unnamed, right);
            // a block is asked later than the rows around it, and the program may have begun anew between
            return one.held() == other.held() ? 0 : Long.compare(one.number(), other.number());
        }
        return Comparing.compare(left, right);
    }

    private Boolean among(In of, Frame frame) {
        Boolean found = false;
        for (Value one : of.values()) {
            Boolean truth = compared("=", of.value(), one, frame);
            if (truth == null) {
                found = null;
            } else if (truth) {
                return true;
            }
        }
        return found;
    }

    private Boolean among(Object value, Collection<?> all) {
        if (all.isEmpty()) {
            return false;
        }
        Boolean found = false;
        for (Object one : all) {
            Boolean truth = compared("=", value, one);
            if (truth == null) {
                found = null;
            } else if (truth) {
                return true;
            }
        }
        return found;
    }

    /** IN of a list: its elements are looked up as the program has them, where the value is a column. */
    private Boolean amongAll(InParameter of, Frame frame) {
        Collection<?> all = ConditionWriter.list(evaluator.binding(), of.list());
        Unit unit = evaluator.unit(of.value());
        if (unit == null || all.isEmpty()) {
            return among(evaluator.value(of.value(), frame), all);
        }
        Set<Object> columns = lists.computeIfAbsent(of, list -> columns(list, all, unit));
        Object value = evaluator.key(of.value(), null, frame);
        if (value == null) {
            return null;
        }
        return columns.contains(value) ? Boolean.TRUE : all.contains(null) ? null : Boolean.FALSE;
    }

    private Set<Object> columns(InParameter of, Collection<?> all, Unit unit) {
        Set<Object> columns = new HashSet<>();
        for (Object one : all) {
            if (one != null) {
                columns.add(Comparing.key(ConditionWriter.column(evaluator.binding(), of.list(), one, unit)));
            }
        }
        return columns;
    }

    private Boolean like(Like of, Frame frame) {
        Object value = evaluator.value(of.value(), frame);
        Object pattern = evaluator.value(of.pattern(), frame);
        Object escape = of.escape() == null ? "" : evaluator.value(of.escape(), frame);
        if (value == null || pattern == null || escape == null) {
            return null;
        }
        return Pattern.compile(regex(pattern.toString(), escape.toString()), Pattern.DOTALL).matcher(value.toString())
                .matches();
    }

    private static String regex(String pattern, String escape) {
        StringBuilder regex = new StringBuilder();
        int[] points = pattern.codePoints().toArray();
        int mark = escape.isEmpty() ? -1 : escape.codePointAt(0);
        for (int place = 0; place < points.length; place++) {
            int point = points[place];
            if (point == mark && place + 1 < points.length) {
                point = points[++place];
                regex.append(Pattern.quote(Character.toString(point)));
            } else if (point == '%') {
                regex.append(".*");
            } else {
                regex.append(point == '_' ? "." : Pattern.quote(Character.toString(point)));
            }
        }
        return regex.toString();
    }

    private Boolean typeIs(TypeIs of, Frame frame) {
        Object type = evaluator.value(new TypeOf(of.at(), of.of()), frame);
        if (type == null) {
            return null;
        }
        boolean isAmong = false;
        for (Value one : of.classes()) {
            if (one instanceof Parameter list) {
                isAmong |= ConditionWriter.list(evaluator.binding(), list).contains(type);
            } else {
                isAmong |= type.equals(((EntityName) one).entity().javaClass());
            }
        }
        return isAmong != of.isNot();
    }
}
