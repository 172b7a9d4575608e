package karzhoul.jpa.query;

import jakarta.persistence.FlushModeType;
import jakarta.persistence.LockModeType;
import jakarta.persistence.NoResultException;
import jakarta.persistence.NonUniqueResultException;
import jakarta.persistence.Parameter;
import jakarta.persistence.PersistenceException;
import jakarta.persistence.QueryTimeoutException;
import jakarta.persistence.TemporalType;
import jakarta.persistence.TypedQuery;
import java.util.ArrayList;
import java.util.Calendar;
import java.util.Date;
import java.util.List;
import java.util.Map;
import java.util.Set;
import java.util.Spliterator;
import java.util.Spliterators;
import java.util.stream.Stream;
import java.util.stream.StreamSupport;

/** A query of a manager (chapter 3.10). It belongs to the manager's thread. */
final class StatementQuery<X> implements TypedQuery<X> {
    private final Asking asking;
    private final Prepared statement;
    private final Shape shape;
    private final Built built;
    private final Given given;
    private final Hints hints;
    private int first;
    private int max = Integer.MAX_VALUE;
    private FlushModeType flushMode;
    private LockModeType lockMode = LockModeType.NONE;

    StatementQuery(Asking asking, Prepared statement, Shape shape) {
        this.asking = asking;
        this.statement = statement;
        this.shape = shape;
        this.built = null;
        this.given = new Given(statement);
        this.hints = new Hints(asking);
    }

    /** A criteria query. */
    StatementQuery(Asking asking, Prepared statement, Shape shape, Built built) {
        this.asking = asking;
        this.statement = statement;
        this.shape = shape;
        this.built = built;
        this.given = new Given(statement, built);
        this.hints = new Hints(asking);
    }

    /** What it was built as, where it is a criteria query; else null. */
    Built built() {
        return built;
    }

    Asking asking() {
        return asking;
    }

    String text() {
        return statement.text();
    }

    Statements.Settings settings() {
        return new Statements.Settings(first, max, flushMode, lockMode);
    }

    // ---- execution

    @Override
    public List<X> getResultList() {
        return results(max);
    }

    @Override
    public Stream<X> getResultStream() {
        SelectPlan keyed = statement.pages().plan();
        if (keyed == null) {
            return getResultList().stream();
        }
        SelectPlan plan = begun();
        List<Object[]> keys;
        try {
            keys = rows(keyed, max);
        } catch (PersistenceException | IllegalArgumentException e) {
            throw marked(e);
        }
        PagedRows rows = new PagedRows(asking, plan.items(), keys, page -> {
            plan.fetch(asking, page);
            return finished(plan, page);
        });
        Spliterator<Object[]> all = Spliterators.spliteratorUnknownSize(rows, Spliterator.ORDERED);
        return StreamSupport.stream(all, false).onClose(rows::close).map(this::shaped);
    }

    @Override
    public X getSingleResult() {
        List<X> found = results(Math.min(max, 2));
        if (found.isEmpty()) {
            throw new NoResultException("the query has no row: " + text());
        }
        if (found.size() > 1) {
            throw new NonUniqueResultException("the query has more than one row: " + text());
        }
        return found.get(0);
    }

    private List<X> results(int most) {
        SelectPlan plan = begun();
        try {
            List<X> results = new ArrayList<>();
            finished(plan, rows(plan, most)).forEach(row -> results.add(shaped(row)));
            return results;
        } catch (PersistenceException | IllegalArgumentException e) {
            throw marked(e);
        }
    }

    /** The plan of a SELECT that is executed now: its parameters are there, and what waits is flushed. */
    private SelectPlan begun() {
        asking.needOpen();
        if (!(statement.plan() instanceof SelectPlan plan)) {
            throw new IllegalStateException("an UPDATE or DELETE is executed by executeUpdate: " + text());
        }
        if (lockMode != LockModeType.NONE) {
            asking.needTransaction();
        }
        given.needAll();
        asking.flushBefore(getFlushMode());
        return plan;
    }

    private List<Object[]> rows(SelectPlan plan, int most) {
        return plan.rows(binding(), first == 0 ? null : first, most == Integer.MAX_VALUE ? null : most);
    }

    /** Locks the entities of rows, and reads what graphs name of them. */
    private List<Object[]> finished(SelectPlan plan, List<Object[]> rows) {
        if (lockMode != LockModeType.NONE) {
            entities(plan, rows).forEach(entity -> asking.lock(entity, lockMode));
        }
        if (hints.hasGraphs()) {
            hints.read(entities(plan, rows));
        }
        return rows;
    }

    /** What is raised for a refusal; a statement that took too long leaves its transaction as it is (chapter 3.11). */
    private RuntimeException marked(RuntimeException refusal) {
        return refusal instanceof QueryTimeoutException ? refusal : asking.marked(refusal);
    }

    @SuppressWarnings("unchecked")
    private X shaped(Object[] row) {
        return (X) shape.of(row);
    }

    private Binding binding() {
        return new Binding(asking, given.values(), hints.deadline());
    }

    /** The entities of the rows. */
    private static List<Object> entities(SelectPlan plan, List<Object[]> rows) {
        List<Object> entities = new ArrayList<>();
        for (int place = 0; place < plan.items().size(); place++) {
            if (Types.of(plan.items().get(place)).kind() == Type.Kind.ENTITY) {
                for (Object[] row : rows) {
                    if (row[place] != null) {
                        entities.add(row[place]);
                    }
                }
            }
        }
        return entities;
    }

    @Override
    public int executeUpdate() {
        asking.needOpen();
        if (!(statement.plan() instanceof ChangePlan plan)) {
            throw new IllegalStateException("a SELECT is executed by getResultList or getSingleResult: " + text());
        }
        asking.needTransaction();
        given.needAll();
        asking.flushBefore(getFlushMode());
        try {
            return plan.done(binding());
        } catch (PersistenceException | IllegalArgumentException e) {
            throw marked(e);
        }
    }

    // ---- how it is executed

    @Override
    public TypedQuery<X> setMaxResults(int most) {
        if (most < 0) {
            throw new IllegalArgumentException("a negative number of results: " + most);
        }
        max = most;
        return this;
    }

    @Override
    public int getMaxResults() {
        return max;
    }

    @Override
    public TypedQuery<X> setFirstResult(int place) {
        if (place < 0) {
            throw new IllegalArgumentException("a negative first result: " + place);
        }
        first = place;
        return this;
    }

    @Override
    public int getFirstResult() {
        return first;
    }

    @Override
    public TypedQuery<X> setHint(String name, Object value) {
        hints.set(name, value);
        return this;
    }

    @Override
    public Map<String, Object> getHints() {
        return hints.all();
    }

    @Override
    public TypedQuery<X> setFlushMode(FlushModeType mode) {
        flushMode = mode;
        return this;
    }

    @Override
    public FlushModeType getFlushMode() {
        return flushMode == null ? asking.flushMode() : flushMode;
    }

    @Override
    public TypedQuery<X> setLockMode(LockModeType mode) {
        needSelect();
        if (mode == null) {
            throw new IllegalArgumentException("the lock mode is null; NONE is no lock: " + text());
        }
        lockMode = mode;
        return this;
    }

    @Override
    public LockModeType getLockMode() {
        needSelect();
        return lockMode;
    }

    private void needSelect() {
        if (!statement.isSelect()) {
            throw new IllegalStateException("an UPDATE or DELETE has no lock mode: " + text());
        }
    }

    @Override
    public <T> T unwrap(Class<T> type) {
        if (type.isInstance(this)) {
            return type.cast(this);
        }
        throw new PersistenceException("a query of Karzhoul is no " + type.getName());
    }

    // ---- parameters

    @Override
    public <T> TypedQuery<X> setParameter(Parameter<T> parameter, T value) {
        given.set(given.keyOf(parameter), value);
        return this;
    }

    @Override
    public TypedQuery<X> setParameter(Parameter<Calendar> parameter, Calendar value, TemporalType type) {
        given.setTime(given.keyOf(parameter), Given.truncated(value, type));
        return this;
    }

    @Override
    public TypedQuery<X> setParameter(Parameter<Date> parameter, Date value, TemporalType type) {
        given.setTime(given.keyOf(parameter), Given.truncated(value, type));
        return this;
    }

    @Override
    public TypedQuery<X> setParameter(String name, Object value) {
        given.set(name, value);
        return this;
    }

    @Override
    public TypedQuery<X> setParameter(String name, Calendar value, TemporalType type) {
        given.setTime(name, Given.truncated(value, type));
        return this;
    }

    @Override
    public TypedQuery<X> setParameter(String name, Date value, TemporalType type) {
        given.setTime(name, Given.truncated(value, type));
        return this;
    }

    @Override
    public TypedQuery<X> setParameter(int position, Object value) {
        given.set(position, value);
        return this;
    }

    @Override
    public TypedQuery<X> setParameter(int position, Calendar value, TemporalType type) {
        given.setTime(position, Given.truncated(value, type));
        return this;
    }

    @Override
    public TypedQuery<X> setParameter(int position, Date value, TemporalType type) {
        given.setTime(position, Given.truncated(value, type));
        return this;
    }

    @Override
    public Set<Parameter<?>> getParameters() {
        return given.parameters();
    }

    @Override
    public Parameter<?> getParameter(String name) {
        return given.parameter(name);
    }

    @Override
    public <T> Parameter<T> getParameter(String name, Class<T> type) {
        return given.parameter(name, type);
    }

    @Override
    public Parameter<?> getParameter(int position) {
        return given.parameter(position);
    }

    @Override
    public <T> Parameter<T> getParameter(int position, Class<T> type) {
        return given.parameter(position, type);
    }

    @Override
    public boolean isBound(Parameter<?> parameter) {
        return given.isSet(given.keyOf(parameter));
    }

    @Override
    public <T> T getParameterValue(Parameter<T> parameter) {
        @SuppressWarnings("unchecked")
        T value = (T) given.value(given.keyOf(parameter));
        return value;
    }

    @Override
    public Object getParameterValue(String name) {
        return given.value(name);
    }

    @Override
    public Object getParameterValue(int position) {
        return given.value(position);
    }
}
