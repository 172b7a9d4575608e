package karzhoul.jpa.criteria;

import java.util.List;
import karzhoul.jpa.query.Tree;
import karzhoul.jpa.query.Tree.Value;

/** A condition that tests values. */
final class Test extends Condition {
    /** How the parts are written, and the node of them. */
    interface Form {
        Tree.Condition write(Writing to, int at, List<Term<?>> parts);
    }

    private final List<Term<?>> parts;
    private final Form form;

    Test(List<Term<?>> parts, Form form) {
        this.parts = List.copyOf(parts);
        this.form = form;
    }

    @Override
    Tree.Condition write(Writing to) {
        return form.write(to, to.at(), parts);
    }

    @Override
    List<Term<?>> parts() {
        return parts;
    }

    // ---- forms

    static Test isNull(Term<?> term, boolean isNot) {
        return new Test(List.of(term), (to, at, parts) -> {
            Value value = to.value(parts.get(0));
            to.add(isNot ? " IS NOT NULL" : " IS NULL");
            return new Tree.IsNull(at, isNot, value);
        });
    }

    /** A comparison; the right side may be ALL or ANY of a subquery. */
    static Test compared(String sign, Term<?> left, Term<?> right) {
        return new Test(List.of(left, right), (to, at, parts) -> {
            Value value = to.value(parts.get(0));
            to.add(" " + sign + " ");
            if (parts.get(1) instanceof QuantifiedOf<?> all) {
                return new Tree.Quantified(at, sign, value, all.isAll(), all.writeBlock(to));
            }
            return new Tree.Compare(at, sign, value, to.value(parts.get(1)));
        });
    }

    static Test between(Term<?> term, Term<?> low, Term<?> high) {
        return new Test(List.of(term, low, high), (to, at, parts) -> {
            Value value = to.value(parts.get(0));
            Value from = to.add(" BETWEEN ").value(parts.get(1));
            Value until = to.add(" AND ").value(parts.get(2));
            return new Tree.Between(at, false, value, from, until);
        });
    }

    /** LIKE; the escape character stands third, where there is one. */
    static Test like(boolean isNot, List<Term<?>> terms) {
        return new Test(terms, (to, at, parts) -> {
            Value value = to.value(parts.get(0));
            Value pattern = to.add(isNot ? " NOT LIKE " : " LIKE ").value(parts.get(1));
            Value escape = parts.size() == 2 ? null : to.add(" ESCAPE ").value(parts.get(2));
            return new Tree.Like(at, isNot, value, pattern, escape);
        });
    }

    static Test isEmpty(Term<?> path, boolean isNot) {
        return new Test(List.of(path), (to, at, parts) -> {
            Value value = to.value(parts.get(0));
            to.add(isNot ? " IS NOT EMPTY" : " IS EMPTY");
            return new Tree.IsEmpty(at, isNot, value);
        });
    }

    static Test member(Term<?> term, Term<?> path, boolean isNot) {
        return new Test(List.of(term, path), (to, at, parts) -> {
            Value value = to.value(parts.get(0));
            Value collection = to.add(isNot ? " NOT MEMBER OF " : " MEMBER OF ").value(parts.get(1));
            return new Tree.Member(at, isNot, value, collection);
        });
    }

    static Test exists(SubqueryOf<?> subquery) {
        return new Test(List.of(subquery), (to, at, parts) -> new Tree.Exists(at, false,
                ((SubqueryOf<?>) parts.get(0)).writeBlock(to.add("EXISTS "))));
    }
}
