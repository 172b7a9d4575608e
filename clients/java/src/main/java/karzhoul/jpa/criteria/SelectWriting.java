package karzhoul.jpa.criteria;

import jakarta.persistence.TupleElement;
import jakarta.persistence.criteria.JoinType;
import jakarta.persistence.criteria.Order;
import jakarta.persistence.criteria.Selection;
import java.util.ArrayList;
import java.util.List;
import karzhoul.jpa.query.Built;
import karzhoul.jpa.query.Tree;
import karzhoul.jpa.query.Tree.Item;
import karzhoul.jpa.query.Tree.Source;

/** Writes a SELECT or a subquery, clause by clause. */
final class SelectWriting {
    private final Writing to;

    SelectWriting(Writing to) {
        this.to = to;
    }

    /** The statement of a query. */
    static Built built(Writing to, QueryOf<?> query) {
        Selection<?> selection = query.selected();
        boolean isMany = selection instanceof Compound<?> compound && compound.kind() != Compound.Kind.CONSTRUCT;
        List<Selection<?>> items = isMany ? ((Compound<?>) selection).items() : List.of(selection);
        Tree.Select select = new SelectWriting(to).select(query, items);
        Class<?> type = isMany && query.getResultType() == Object.class ? selection.getJavaType()
                : query.getResultType();
        boolean isCompound = isMany || type == jakarta.persistence.Tuple.class
                || type.isArray() && !type.isAssignableFrom(orObject(selection.getJavaType()));
        List<TupleElement<?>> elements = new ArrayList<>(items);
        return to.built(select, new Built.Result(type, isCompound, elements));
    }

    private static Class<?> orObject(Class<?> type) {
        return type == null ? Object.class : type;
    }

    private Tree.Select select(QueryOf<?> query, List<Selection<?>> selections) {
        Clauses clauses = query.clauses();
        declare(clauses);
        int at = to.at();
        to.add(clauses.isDistinct ? "SELECT DISTINCT " : "SELECT ");
        List<Item> items = new ArrayList<>();
        for (Selection<?> selection : selections) {
            to.add(items.isEmpty() ? "" : ", ");
            items.add(item(selection));
            to.add(selection.getAlias() == null ? "" : " AS " + selection.getAlias());
        }
        List<Source> sources = sources(clauses, false);
        Tree.Condition where = condition(" WHERE ", clauses.where);
        List<Tree.Value> groups = groups(clauses);
        Tree.Condition having = condition(" HAVING ", clauses.having);
        return new Tree.Select(at, clauses.isDistinct, items, sources, where, groups, having,
                order(query.getOrderList(), selections));
    }

    /** The block of a subquery. */
    Tree.Select block(SubqueryOf<?> subquery) {
        Clauses clauses = subquery.clauses();
        declare(clauses);
        int at = to.at();
        to.add(clauses.isDistinct ? "SELECT DISTINCT " : "SELECT ");
        List<Item> items = List.of(new Item(to.value(subquery.selected()), null));
        List<Source> sources = sources(clauses, true);
        Tree.Condition where = condition(" WHERE ", clauses.where);
        List<Tree.Value> groups = groups(clauses);
        return new Tree.Select(at, clauses.isDistinct, items, sources, where, groups,
                condition(" HAVING ", clauses.having), List.of());
    }

    // ---- SELECT

    private Item item(Selection<?> selection) {
        if (!(selection instanceof Compound<?> made)) {
            return new Item(to.value((Term<?>) selection), selection.getAlias());
        }
        int at = to.at();
        to.add("NEW " + made.getJavaType().getName() + "(");
        List<Item> arguments = new ArrayList<>();
        for (Selection<?> argument : made.items()) {
            to.add(arguments.isEmpty() ? "" : ", ");
            arguments.add(new Item(to.value((Term<?>) argument), argument.getAlias()));
        }
        to.add(")");
        return new Item(new Tree.Construct(at, made.getJavaType().getName(), arguments), made.getAlias());
    }

    private Tree.Condition condition(String word, Condition condition) {
        return condition == null ? null : to.add(word).condition(condition);
    }

    private List<Tree.Value> groups(Clauses clauses) {
        return clauses.groups.isEmpty() ? List.of() : to.add(" GROUP BY ").values(clauses.groups);
    }

    private List<Tree.Key> order(List<Order> order, List<Selection<?>> selections) {
        List<Tree.Key> keys = new ArrayList<>();
        for (Order key : order) {
            to.add(keys.isEmpty() ? " ORDER BY " : ", ");
            int at = to.at();
            Tree.Value value = to.value(key.getExpression());
            int place = selections.indexOf(key.getExpression());
            keys.add(new Tree.Key(place < 0 ? value : new Tree.ItemName(at, place), !key.isAscending()));
            to.add(key.isAscending() ? "" : " DESC");
        }
        return keys;
    }

    // ---- FROM

    private void declare(Clauses clauses) {
        for (RootOf<?> root : clauses.roots) {
            to.declare(root);
            declareJoins(root);
        }
        clauses.correlated.forEach(this::declareJoins);
    }

    private void declareJoins(FromOf<?, ?> from) {
        for (JoinOf<?, ?> join : from.joins()) {
            if (!join.isEmbedded()) {
                to.declare(join);
            }
            declareJoins(join);
        }
    }

    private List<Source> sources(Clauses clauses, boolean isBlock) {
        List<Source> sources = new ArrayList<>();
        to.add(" FROM ");
        for (RootOf<?> root : clauses.roots) {
            to.add(sources.isEmpty() ? "" : ", ");
            int at = to.at();
            String name = to.name(root);
            to.add(root.getModel().getName() + " " + name);
            sources.add(new Tree.Range(at, root.getModel().getName(), name, null));
            addJoins(root, sources, isBlock);
        }
        for (FromOf<?, ?> correlated : clauses.correlated) {
            addDerived(correlated, sources);
        }
        if (sources.isEmpty()) {
            throw new IllegalStateException(isBlock ? "a subquery has no root, and joins nothing of what it correlates"
                    : "the query has no root");
        }
        return sources;
    }

    /** The joins of what a subquery has of a query around it, which begin its FROM. */
    private void addDerived(FromOf<?, ?> correlated, List<Source> sources) {
        if (!correlated.fetches().isEmpty()) {
            throw new IllegalArgumentException("a subquery fetches nothing");
        }
        for (JoinOf<?, ?> join : correlated.joins()) {
            if (join.isEmbedded()) {
                addDerived(join, sources);
                continue;
            }
            if (join.getJoinType() != JoinType.INNER || join.condition() != null) {
                throw new IllegalArgumentException("a join of what a subquery correlates is an inner one without ON;"
                        + " add its condition to WHERE");
            }
            to.add(sources.isEmpty() ? "" : ", ");
            int at = to.at();
            Tree.Value path = join.path(to);
            to.add(" " + to.name(join));
            sources.add(new Tree.Derived(at, false, path, to.name(join), null));
            addJoins(join, sources, true);
        }
    }

    private void addJoins(FromOf<?, ?> from, List<Source> sources, boolean isBlock) {
        for (JoinOf<?, ?> join : from.joins()) {
            if (!join.isEmbedded()) {
                int at = to.at() + 1;
                boolean isLeft = join.getJoinType() == JoinType.LEFT;
                Tree.Value path = join.path(to.add(isLeft ? " LEFT JOIN " : " JOIN "));
                String name = to.name(join);
                to.add(" " + name);
                Tree.Condition on = condition(" ON ", join.condition());
                sources.add(new Tree.Join(at, isLeft, false, path, name, null, on));
            }
            addJoins(join, sources, isBlock);
        }
        if (isBlock && !from.fetches().isEmpty()) {
            throw new IllegalArgumentException("a subquery fetches nothing");
        }
        for (FetchOf<?, ?> fetch : from.fetches()) {
            addFetch(new ArrayList<>(), from, null, fetch, sources);
        }
    }

    /**
     * A fetch join, and those from it.
     *
     * @param names what stands before its attribute, behind the variable
     * @param parent the variable of the fetch around it; null where that is a root or a join
     */
    private void addFetch(List<String> names, FromOf<?, ?> from, String parent, FetchOf<?, ?> fetch,
            List<Source> sources) {
        List<String> path = new ArrayList<>(names);
        path.add(fetch.getAttribute().getName());
        if (fetch.isEmbedded()) {
            fetch.fetches().forEach(one -> addFetch(path, from, parent, one, sources));
            return;
        }
        int at = to.at() + 1;
        boolean isLeft = fetch.getJoinType() == JoinType.LEFT;
        to.add(isLeft ? " LEFT JOIN FETCH " : " JOIN FETCH ");
        Tree.Value along;
        if (parent == null) {
            along = from.write(to, path);
        } else {
            List<String> whole = new ArrayList<>(List.of(parent));
            whole.addAll(path);
            along = to.path(whole);
        }
        String name = fetch.fetches().isEmpty() ? null : to.newName(fetch.getAttribute().getName());
        to.add(name == null ? "" : " " + name);
        sources.add(new Tree.Join(at, isLeft, true, along, name, null, null));
        fetch.fetches().forEach(one -> addFetch(List.of(), from, name, one, sources));
    }
}
