package karzhoul.jpa.context;

import jakarta.persistence.EntityGraph;
import jakarta.persistence.EntityManager;
import jakarta.persistence.EntityManagerFactory;
import jakarta.persistence.EntityTransaction;
import jakarta.persistence.FlushModeType;
import jakarta.persistence.LockModeType;
import jakarta.persistence.PersistenceException;
import jakarta.persistence.Query;
import jakarta.persistence.StoredProcedureQuery;
import jakarta.persistence.TransactionRequiredException;
import jakarta.persistence.TypedQuery;
import jakarta.persistence.criteria.CriteriaBuilder;
import jakarta.persistence.criteria.CriteriaDelete;
import jakarta.persistence.criteria.CriteriaQuery;
import jakarta.persistence.criteria.CriteriaUpdate;
import jakarta.persistence.metamodel.Metamodel;
import java.util.ArrayList;
import java.util.HashMap;
import java.util.List;
import java.util.Map;
import java.util.function.Function;
import java.util.function.Supplier;
import karzhoul.jpa.Karzhoul;
import karzhoul.jpa.graph.Graphs;
import karzhoul.jpa.graph.RootGraph;
import karzhoul.jpa.model.EntityModel;
import karzhoul.jpa.query.Statements;

/**
 * An entity manager (chapter 3.1.1) over one persistence context, which lasts until it is cleared or closed. For one
 * thread at a time, as the standard says.
 */
final class Manager implements EntityManager {
    private final Factory factory;
    private final Context context;
    private final Transaction transaction;
    private final Map<String, Object> properties;
    private final Questions questions;
    private FlushModeType flushMode = FlushModeType.AUTO;
    private boolean isOpen = true;

    Manager(Factory factory, Map<?, ?> given) {
        this.factory = factory;
        context = new Context(factory);
        transaction = new Transaction(context);
        properties = new HashMap<>(factory.getProperties());
        given.forEach((name, value) -> properties.put(String.valueOf(name), value));
        questions = new Questions(this, context);
    }

    Context context() {
        return context;
    }

    void needOpen() {
        if (!isOpen()) {
            throw new IllegalStateException("the entity manager is closed");
        }
    }

    private void within(Runnable operation) {
        context.within(() -> {
            operation.run();
            return null;
        });
    }

    @Override
    public void persist(Object entity) {
        needOpen();
        context.modelOf(entity);
        within(() -> new Persist(context).of(entity));
    }

    @Override
    public <T> T merge(T entity) {
        needOpen();
        context.modelOf(entity);
        return context.within(() -> new Merge(context).of(entity));
    }

    @Override
    public void remove(Object entity) {
        needOpen();
        context.modelOf(entity);
        within(() -> new Operations(context).remove(entity));
    }

    @Override
    public <T> T find(Class<T> entityClass, Object primaryKey) {
        needOpen();
        EntityModel model = entity(entityClass);
        return cast(new Operations(context).find(model, key(model, primaryKey)));
    }

    @Override
    public <T> T find(Class<T> entityClass, Object primaryKey, Map<String, Object> given) {
        needOpen();
        List<RootGraph<?>> graphs = graphs(given);
        T found = find(entityClass, primaryKey);
        read(found, graphs);
        return found;
    }

    /** The fetch graph and the load graph of properties (chapter 3.7.4). */
    private List<RootGraph<?>> graphs(Map<String, Object> given) {
        List<RootGraph<?>> graphs = new ArrayList<>();
        if (given != null) {
            try {
                for (String name : List.of(Graphs.FETCH, Graphs.LOAD)) {
                    if (given.get(name) != null) {
                        graphs.add(factory.graphs().given(given.get(name)));
                    }
                }
            } catch (IllegalArgumentException e) {
                throw context.marked(e);
            }
        }
        return graphs;
    }

    private void read(Object instance, List<RootGraph<?>> graphs) {
        if (instance != null) {
            graphs.forEach(graph -> questions.read(List.of(instance), graph));
        }
    }

    @Override
    public <T> T find(Class<T> entityClass, Object primaryKey, LockModeType lockMode) {
        return find(entityClass, primaryKey, lockMode, Map.of());
    }

    @Override
    public <T> T find(Class<T> entityClass, Object primaryKey, LockModeType lockMode, Map<String, Object> given) {
        needOpen();
        if (lockMode != LockModeType.NONE) {
            context.needTransaction();
        }
        T found = find(entityClass, primaryKey, given);
        if (found != null && lockMode != LockModeType.NONE) {
            lock(found, lockMode);
        }
        return found;
    }

    @Override
    public <T> T getReference(Class<T> entityClass, Object primaryKey) {
        needOpen();
        EntityModel model = entity(entityClass);
        return cast(new Operations(context).reference(model, key(model, primaryKey)));
    }

    private EntityModel entity(Class<?> entityClass) {
        try {
            return factory.unit().of(entityClass);
        } catch (IllegalArgumentException e) {
            throw context.marked(e);
        }
    }

    private List<Object> key(EntityModel model, Object key) {
        try {
            return model.key().columnsOf(key);
        } catch (IllegalArgumentException e) {
            throw context.marked(new IllegalArgumentException("no key of " + model.name() + ": " + e.getMessage(), e));
        }
    }

    @SuppressWarnings("unchecked")
    private static <T> T cast(Object instance) {
        return (T) instance;
    }

    @Override
    public void flush() {
        needOpen();
        context.needTransaction();
        flushNow();
    }

    /** Flushes, in a transaction; what is refused is told with its entity. */
    void flushNow() {
        try {
            within(() -> new Flush(context).flush());
        } catch (RuntimeException e) {
            throw context.marked(new Culprits(context).named(e));
        }
    }

    @Override
    public void setFlushMode(FlushModeType mode) {
        needOpen();
        flushMode = mode;
    }

    @Override
    public FlushModeType getFlushMode() {
        needOpen();
        return flushMode;
    }

    @Override
    public void lock(Object entity, LockModeType lockMode) {
        needOpen();
        context.modelOf(entity);
        context.needTransaction();
        within(() -> new Operations(context).lock(entity, lockMode));
    }

    @Override
    public void lock(Object entity, LockModeType lockMode, Map<String, Object> given) {
        lock(entity, lockMode);
    }

    @Override
    public void refresh(Object entity) {
        needOpen();
        context.modelOf(entity);
        within(() -> new Operations(context).refresh(entity));
    }

    @Override
    public void refresh(Object entity, Map<String, Object> given) {
        needOpen();
        List<RootGraph<?>> graphs = graphs(given);
        refresh(entity);
        read(entity, graphs);
    }

    @Override
    public void refresh(Object entity, LockModeType lockMode) {
        refresh(entity, lockMode, Map.of());
    }

    @Override
    public void refresh(Object entity, LockModeType lockMode, Map<String, Object> given) {
        needOpen();
        if (lockMode != LockModeType.NONE) {
            context.needTransaction();
        }
        refresh(entity, given);
        if (lockMode != LockModeType.NONE) {
            lock(entity, lockMode);
        }
    }

    @Override
    public void clear() {
        needOpen();
        context.clear();
    }

    @Override
    public void detach(Object entity) {
        needOpen();
        context.modelOf(entity);
        Entry entry = context.entryOf(entity);
        if (entry != null) {
            within(() -> new Operations(context).detach(entity));
        }
    }

    @Override
    public boolean contains(Object entity) {
        needOpen();
        context.modelOf(entity);
        Entry entry = context.entryOf(entity);
        return entry != null && entry.isManaged();
    }

    @Override
    public LockModeType getLockMode(Object entity) {
        needOpen();
        context.modelOf(entity);
        return new Operations(context).lockOf(entity);
    }

    @Override
    public void setProperty(String propertyName, Object value) {
        needOpen();
        properties.put(propertyName, value);
    }

    @Override
    public Map<String, Object> getProperties() {
        needOpen();
        return Map.copyOf(properties);
    }

    @Override
    public Query createQuery(String text) {
        return question(statements -> statements.create(questions, text));
    }

    @Override
    public <T> TypedQuery<T> createQuery(String text, Class<T> resultClass) {
        return question(statements -> statements.create(questions, text, resultClass));
    }

    @Override
    public Query createNamedQuery(String name) {
        return question(statements -> statements.createNamed(questions, name));
    }

    @Override
    public <T> TypedQuery<T> createNamedQuery(String name, Class<T> resultClass) {
        return question(statements -> statements.createNamed(questions, name, resultClass));
    }

    /** A query; a text that is none marks the transaction, as every other refusal does. */
    private <T> T question(Function<Statements, T> created) {
        needOpen();
        try {
            return created.apply(factory.statements());
        } catch (IllegalArgumentException e) {
            throw context.marked(e);
        }
    }

    @Override
    public <T> TypedQuery<T> createQuery(CriteriaQuery<T> criteriaQuery) {
        return question(statements -> statements.create(questions, factory.criteria().built(criteriaQuery)));
    }

    @Override
    public Query createQuery(CriteriaUpdate updateQuery) {
        return question(statements -> statements.create(questions,
            factory.criteria().built((CriteriaUpdate<?>) updateQuery)));
    }

    @Override
    public Query createQuery(CriteriaDelete deleteQuery) {
        return question(statements -> statements.create(questions,
            factory.criteria().built((CriteriaDelete<?>) deleteQuery)));
    }

    @Override
    public Query createNativeQuery(String sqlString) {
        return refuse(Later::sql);
    }

    @Override
    public Query createNativeQuery(String sqlString, Class resultClass) {
        return refuse(Later::sql);
    }

    @Override
    public Query createNativeQuery(String sqlString, String resultSetMapping) {
        return refuse(Later::sql);
    }

    @Override
    public StoredProcedureQuery createNamedStoredProcedureQuery(String name) {
        return refuse(Later::sql);
    }

    @Override
    public StoredProcedureQuery createStoredProcedureQuery(String procedureName) {
        return refuse(Later::sql);
    }

    @Override
    public StoredProcedureQuery createStoredProcedureQuery(String procedureName, Class... resultClasses) {
        return refuse(Later::sql);
    }

    @Override
    public StoredProcedureQuery createStoredProcedureQuery(String procedureName, String... resultSetMappings) {
        return refuse(Later::sql);
    }

    private <T> T refuse(Supplier<UnsupportedOperationException> refusal) {
        needOpen();
        throw refusal.get();
    }

    /**
     * Refused: there is no JTA transaction to join (chapter 7.9.1).
     *
     * @throws TransactionRequiredException always
     */
    @Override
    public void joinTransaction() {
        needOpen();
        throw new TransactionRequiredException("there is no JTA transaction to join: transactions are resource-local");
    }

    @Override
    public boolean isJoinedToTransaction() {
        needOpen();
        return context.isActive();
    }

    @Override
    public <T> T unwrap(Class<T> cls) {
        needOpen();
        if (cls == Karzhoul.class) {
            return factory.unwrap(cls);
        } else if (cls.isInstance(this)) {
            return cls.cast(this);
        }
        throw context.marked(new PersistenceException("an entity manager of Karzhoul is no " + cls.getName()));
    }

    @Override
    public Object getDelegate() {
        needOpen();
        return this;
    }

    /** Closes it; where a transaction is active the context stays until it ends (chapter 7.2.1). */
    @Override
    public void close() {
        needOpen();
        isOpen = false;
        context.close();
    }

    @Override
    public boolean isOpen() {
        return isOpen && factory.isOpen();
    }

    @Override
    public EntityTransaction getTransaction() {
        return transaction;
    }

    @Override
    public EntityManagerFactory getEntityManagerFactory() {
        needOpen();
        return factory;
    }

    @Override
    public CriteriaBuilder getCriteriaBuilder() {
        needOpen();
        return factory.getCriteriaBuilder();
    }

    @Override
    public Metamodel getMetamodel() {
        needOpen();
        return factory.getMetamodel();
    }

    @Override
    public <T> EntityGraph<T> createEntityGraph(Class<T> rootType) {
        return graph(graphs -> graphs.create(rootType));
    }

    @Override
    public EntityGraph<?> createEntityGraph(String graphName) {
        return graph(graphs -> graphs.copy(graphName));
    }

    @Override
    public EntityGraph<?> getEntityGraph(String graphName) {
        return graph(graphs -> graphs.get(graphName));
    }

    @Override
    public <T> List<EntityGraph<? super T>> getEntityGraphs(Class<T> entityClass) {
        return graph(graphs -> graphs.of(entityClass));
    }

    private <T> T graph(Function<Graphs, T> asked) {
        needOpen();
        try {
            return asked.apply(factory.graphs());
        } catch (IllegalArgumentException e) {
            throw context.marked(e);
        }
    }
}
