package karzhoul.jpa.query;

import jakarta.persistence.FlushModeType;
import jakarta.persistence.LockModeType;
import jakarta.persistence.Query;
import jakarta.persistence.TypedQuery;
import java.util.ArrayList;
import java.util.LinkedHashMap;
import java.util.List;
import java.util.Map;
import java.util.concurrent.ConcurrentHashMap;
import java.util.function.Supplier;
import karzhoul.jpa.model.UnitModel;
import karzhoul.jpa.query.Tree.Select;
import karzhoul.jpa.query.Tree.Statement;

/**
 * The statements of a factory: each text, and each tree, is read, typed and planned once, and the last of them are kept. Threads may
 * share it; queries belong to their managers.
 */
public final class Statements {
    private static final int MOST_KEPT = 1_000;

    private final UnitModel unit;
    private final Map<String, NamedQuery> named = new ConcurrentHashMap<>();
    /** By the text, or by the tree of what was built. */
    private final Map<Object, Prepared> kept = new LinkedHashMap<>(64, 0.75f, true) {
        private static final long serialVersionUID = 1L;

        @Override
        protected boolean removeEldestEntry(Map.Entry<Object, Prepared> eldest) {
            return size() > MOST_KEPT;
        }
    };

    /** A named query with how it is set up. */
    private record NamedQuery(String text, Built built, Map<String, Object> hints, Settings settings) {}

    /** What {@code addNamedQuery} keeps of a query beside its text. */
    record Settings(int first, int max, FlushModeType flush, LockModeType lock) {}

    /** The statements of a unit, with its named queries. */
    public Statements(UnitModel unit) {
        this.unit = unit;
        unit.namedQueries().forEach((name, query) -> named.put(name,
                new NamedQuery(query.text(), null, query.hints(), null)));
    }

    /**
     * The faults of the unit's named queries, each with its name: what a factory is refused for as it is made.
     */
    public List<String> faults() {
        List<String> faults = new ArrayList<>();
        unit.namedQueries().forEach((name, query) -> {
            try {
                prepare(query.text());
            } catch (IllegalArgumentException e) {
                faults.add("the named query " + name + ": " + e.getMessage() + ": " + query.text());
            }
        });
        return faults;
    }

    /**
     * A query of a text (chapter 3.10.1).
     *
     * @throws IllegalArgumentException where the text is no statement, or can't be answered as the standard says; it
     *     begins with the line and the column
     */
    public Query create(Asking asking, String text) {
        Prepared statement = prepare(text);
        return new StatementQuery<>(asking, statement, Shape.of(statement));
    }

    /**
     * A query of a SELECT whose rows are of a class: the item's, Object[], Tuple, or the one of NEW.
     *
     * @throws IllegalArgumentException as of {@link #create(Asking, String)}; also where rows can't be of the class
     */
    public <X> TypedQuery<X> create(Asking asking, String text, Class<X> type) {
        Prepared statement = prepare(text);
        if (!statement.isSelect()) {
            throw new IllegalArgumentException("an UPDATE or DELETE has no rows of " + type.getName() + ": " + text);
        }
        return new StatementQuery<>(asking, statement, Shape.of(statement, type));
    }

    /**
     * A query of a statement that was built (chapter 6.8).
     *
     * @throws IllegalArgumentException where it isn't well typed, or can't be answered as the standard says
     */
    public <X> TypedQuery<X> create(Asking asking, Built built) {
        Prepared statement = prepare(built.tree(), built.text(), built::tree);
        Shape shape = built.result() == null ? Shape.of(statement) : Shape.of(statement, built.result());
        return new StatementQuery<>(asking, statement, shape, built);
    }

    /**
     * A named query (chapter 3.10.15).
     *
     * @throws IllegalArgumentException where there is none of this name
     */
    public Query createNamed(Asking asking, String name) {
        NamedQuery query = named(name);
        return set(query.built() == null ? create(asking, query.text()) : create(asking, query.built()), query);
    }

    /**
     * A named query whose rows are of a class.
     *
     * @throws IllegalArgumentException where there is none of this name, or its rows can't be of the class
     */
    public <X> TypedQuery<X> createNamed(Asking asking, String name, Class<X> type) {
        NamedQuery query = named(name);
        TypedQuery<X> created = query.built() == null ? create(asking, query.text(), type)
                : create(asking, query.built(), type);
        set(created, query);
        return created;
    }

    private <X> TypedQuery<X> create(Asking asking, Built built, Class<X> type) {
        if (built.result() == null || !type.isAssignableFrom(Classes.boxed(built.result().type()))) {
            throw new IllegalArgumentException("rows of the query are no " + type.getName() + ": " + built.text());
        }
        return create(asking, built);
    }

    private NamedQuery named(String name) {
        NamedQuery query = named.get(name);
        if (query == null) {
            throw new IllegalArgumentException("there is no query named \"" + name + "\"" + Nearest.hint(name,
                    named.keySet()));
        }
        return query;
    }

    private static Query set(Query query, NamedQuery named) {
        named.hints().forEach(query::setHint);
        Settings settings = named.settings();
        if (settings != null) {
            query.setFirstResult(settings.first());
            if (settings.max() != Integer.MAX_VALUE) {
                query.setMaxResults(settings.max());
            }
            if (settings.flush() != null) {
                query.setFlushMode(settings.flush());
            }
            if (settings.lock() != LockModeType.NONE) {
                query.setLockMode(settings.lock());
            }
        }
        return query;
    }

    /**
     * Names a query, in the place of one of that name (EntityManagerFactory.addNamedQuery); what its parameters are
     * isn't
     * kept.
     *
     * @throws IllegalArgumentException where the query is none of this provider's
     */
    public void addNamed(String name, Query query) {
        if (!(query instanceof StatementQuery<?> statement)) {
            throw new IllegalArgumentException("the query is none of this provider's");
        }
        named.put(name, new NamedQuery(statement.text(), statement.built(), Map.copyOf(query.getHints()),
                statement.settings()));
    }

    /** The statement of a text. */
    Prepared prepare(String text) {
        if (text == null) {
            throw new IllegalArgumentException("the text of a query is null");
        }
        return prepare(text, text, () -> Parser.parse(text));
    }

    /** The statement of a key: the one that is kept, or a new one. */
    private Prepared prepare(Object key, String text, Supplier<Statement> read) {
        synchronized (kept) {
            Prepared known = kept.get(key);
            if (known != null) {
                return known;
            }
        }
        Prepared made = make(text, read.get());
        synchronized (kept) {
            kept.put(key, made);
        }
        return made;
    }

    private Prepared make(String text, Statement read) {
        Statement statement = Resolver.resolve(unit, text, read);
        Map<Object, ParameterModel> parameters = Typer.check(unit, text, statement);
        List<Prepared.Column> items = new ArrayList<>();
        if (statement instanceof Select select) {
            select.items().forEach(item -> items.add(Prepared.column(unit, text, item)));
        }
        return new Prepared(text, Planner.plan(unit, text, statement), parameters, items,
                new Pages(unit, text, statement));
    }
}
