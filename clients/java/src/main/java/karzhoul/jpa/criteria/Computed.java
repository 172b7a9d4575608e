package karzhoul.jpa.criteria;

import java.util.List;
import karzhoul.jpa.query.Function;
import karzhoul.jpa.query.Tree;
import karzhoul.jpa.query.Tree.Aggregate;
import karzhoul.jpa.query.Tree.Value;

/** A value that is computed of others. */
final class Computed<X> extends Term<X> {
    /** How the parts are written, and the node of them. */
    interface Form {
        Value write(Writing to, int at, List<Term<?>> parts);
    }

    private final List<Term<?>> parts;
    private final Form form;

    Computed(Class<?> type, List<Term<?>> parts, Form form) {
        super(type);
        this.parts = List.copyOf(parts);
        this.form = form;
    }

    @Override
    Value write(Writing to) {
        return form.write(to, to.at(), parts);
    }

    @Override
    List<Term<?>> parts() {
        return parts;
    }

    // ---- forms

    /** A function of its arguments. */
    static Form call(Function function) {
        return (to, at, parts) -> {
            List<Value> arguments = to.add(function + "(").values(parts);
            to.add(")");
            return new Tree.Call(at, function, arguments);
        };
    }

    static Form aggregate(Aggregate.Kind kind, boolean isDistinct) {
        return (to, at, parts) -> {
            Value operand = to.add(kind + (isDistinct ? "(DISTINCT " : "(")).value(parts.get(0));
            to.add(")");
            return new Aggregate(at, kind, isDistinct, operand);
        };
    }

    static Form arithmetic(char sign) {
        return (to, at, parts) -> {
            Value left = to.add("(").value(parts.get(0));
            Value right = to.add(" " + sign + " ").value(parts.get(1));
            to.add(")");
            return new Tree.Arithmetic(at, sign, left, right);
        };
    }

    /** TRIM of a side, by the character and the text. */
    static Form trim(String side) {
        return (to, at, parts) -> {
            Value character = to.add("TRIM(" + side + " ").value(parts.get(0));
            Value text = to.add(" FROM ").value(parts.get(1));
            to.add(")");
            return new Tree.Call(at, Function.TRIM, List.of(new Tree.Literal(at, side), character, text));
        };
    }

    static Form negative() {
        return (to, at, parts) -> {
            Value value = to.add("-(").value(parts.get(0));
            to.add(")");
            return new Tree.Signed(at, true, value);
        };
    }

    static Form now(Tree.Now.Kind kind) {
        return (to, at, parts) -> {
            to.add(kind.name().replace("LOCAL_", "LOCAL "));
            return new Tree.Now(at, kind);
        };
    }

    static Form type() {
        return (to, at, parts) -> {
            Value operand = to.add("TYPE(").value(parts.get(0));
            to.add(")");
            return new Tree.TypeOf(at, operand);
        };
    }
}
