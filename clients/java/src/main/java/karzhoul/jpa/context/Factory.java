package karzhoul.jpa.context;

import jakarta.persistence.Cache;
import jakarta.persistence.CascadeType;
import jakarta.persistence.EntityGraph;
import jakarta.persistence.EntityManager;
import jakarta.persistence.EntityManagerFactory;
import jakarta.persistence.PersistenceException;
import jakarta.persistence.PersistenceUnitUtil;
import jakarta.persistence.Query;
import jakarta.persistence.SynchronizationType;
import jakarta.persistence.criteria.CriteriaBuilder;
import jakarta.persistence.metamodel.Metamodel;
import java.util.ArrayList;
import java.util.Collections;
import java.util.HashMap;
import java.util.HashSet;
import java.util.List;
import java.util.Map;
import java.util.Set;
import java.util.concurrent.atomic.AtomicBoolean;
import java.util.function.Function;
import java.util.function.Predicate;
import karzhoul.jpa.Karzhoul;
import karzhoul.jpa.criteria.Builder;
import karzhoul.jpa.engine.Pool;
import karzhoul.jpa.engine.Program;
import karzhoul.jpa.graph.Graphs;
import karzhoul.jpa.metamodel.UnitMetamodel;
import karzhoul.jpa.model.Callbacks.Event;
import karzhoul.jpa.model.EntityModel;
import karzhoul.jpa.model.Relation;
import karzhoul.jpa.model.UnitModel;
import karzhoul.jpa.query.Statements;
import karzhoul.jpa.spi.UnitSettings;

/** A factory of entity managers (chapter 7.4), over the program of its store. Safe for all threads. */
public final class Factory implements EntityManagerFactory {
    private static final Set<Event> BEFORE = Set.of(Event.PrePersist, Event.PreUpdate, Event.PreRemove);
    private static final Set<Event> WRITES =
        Set.of(Event.PreRemove, Event.PostPersist, Event.PostUpdate, Event.PostRemove);

    private final UnitSettings settings;
    private final Program program;
    private final Set<EntityModel> hearingBefore;
    private final Set<EntityModel> writingFirst;
    private final Map<String, EntityModel> mapped = new HashMap<>();
    private final Map<String, Object> properties;
    private final NeverStored neverStored = new NeverStored();
    private final AtomicBoolean isOpen = new AtomicBoolean(true);
    private final Statements statements;
    private final Graphs graphs;
    private final UnitMetamodel metamodel;
    private final Builder criteria;
    private final Karzhoul beyond;
    private final FactoryBean bean;
    private Function<Context, Push> pushing = Push::new;


    /**
     * Opens a unit.
     *
     * @throws PersistenceException where a named query or entity graph is none, the program can't be started, or it refuses the
     *     mapping or the store
     */
    public Factory(UnitSettings settings) {
        this.settings = settings;
        UnitModel unit = settings.unit();
        statements = new Statements(unit);
        graphs = new Graphs(unit);
        List<String> faults = new ArrayList<>(statements.faults());
        faults.addAll(graphs.faults());
        if (!faults.isEmpty()) {
            throw new PersistenceException("the persistence unit " + settings.name() + " is refused:\n  "
                + String.join("\n  ", faults));
        }
        metamodel = new UnitMetamodel(unit);
        criteria = new Builder(unit, metamodel);
        program = Program.open(settings.url(), settings.program(), unit, settings.properties(),
            settings.log().orElse(null));
        hearingBefore = reaching(entity -> BEFORE.stream().anyMatch(event -> entity.callbacks().hears(event)));
        writingFirst = reaching(entity -> !entity.uniques().isEmpty() || ListOrders.isOrdered(entity)
            || WRITES.stream().anyMatch(event -> entity.callbacks().hears(event)));
        settings.unit().entities().forEach(entity -> mapped.put(entity.mappedName(), entity));
        settings.unit().hidden().forEach(entity -> mapped.put(entity.mappedName(), entity));
        properties = Map.copyOf(settings.properties());
        beyond = new KarzhoulOf(this, program);
        bean = isBean(settings.properties()) ? bean() : null;
    }

    private static boolean isBean(Map<String, Object> properties) {
        return String.valueOf(properties.get("karzhoul.jmx")).trim().equals("true");
    }

    private FactoryBean bean() {
        try {
            return new FactoryBean(settings.name(), beyond);
        } catch (PersistenceException refused) {
            program.close();
            throw refused;
        }
    }

    /** The entities of which this is true, and those from which a flush may lead to one of them. */
    private Set<EntityModel> reaching(Predicate<EntityModel> wanted) {
        Set<EntityModel> reaching = new HashSet<>();
        List<EntityModel> all = new ArrayList<>(settings.unit().entities());
        all.addAll(settings.unit().hidden());
        all.stream().filter(wanted).forEach(reaching::add);
        boolean isMore = !reaching.isEmpty();
        while (isMore) {
            isMore = false;
            for (EntityModel entity : settings.unit().entities()) {
                isMore |= entity.relations().stream().anyMatch(relation -> isAlong(relation, reaching))
                    && reaching.add(entity);
            }
        }
        return reaching;
    }

    private static boolean isAlong(Relation relation, Set<EntityModel> reaching) {
        boolean isWalked = relation.removesOrphans() || relation.cascades().contains(CascadeType.PERSIST)
            || relation.cascades().contains(CascadeType.REMOVE);
        return isWalked && reaching.stream().anyMatch(entity -> entity.isA(relation.target()));
    }

    UnitModel unit() {
        return settings.unit();
    }

    Statements statements() {
        return statements;
    }

    Builder criteria() {
        return criteria;
    }

    Graphs graphs() {
        return graphs;
    }

    /** The entity of a name in the program's mapping. */
    EntityModel mapped(String name) {
        return mapped.get(name);
    }

    Pool pool() {
        return program.pool();
    }

    long waitMillis() {
        return settings.poolWait().toMillis();
    }

    NeverStored neverStored() {
        return neverStored;
    }

    /** Whether a flush of one of these may have callbacks before the writes, so that the program is asked which. */
    boolean hearsBefore(Set<EntityModel> entities) {
        return !Collections.disjoint(hearingBefore, entities);
    }

    /** Whether something belongs between the writes of one of these and the commit: callbacks, or unique values. */
    boolean writesFirst(Set<EntityModel> entities) {
        return !Collections.disjoint(writingFirst, entities);
    }

    Function<Context, Push> pushing() {
        return pushing;
    }

    /** Lets a test push in another way, as one that loses a value. */
    void pushing(Function<Context, Push> other) {
        pushing = other;
    }

    void needOpen() {
        if (!isOpen.get()) {
            throw new IllegalStateException("the entity manager factory is closed");
        }
    }

    @Override
    public EntityManager createEntityManager() {
        return createEntityManager(Map.of());
    }

    @Override
    public EntityManager createEntityManager(Map map) {
        needOpen();
        return new Manager(this, map == null ? Map.of() : map);
    }

    /**
     * Refused: there is no JTA with which to synchronize (chapter 7.4).
     *
     * @throws IllegalStateException always
     */
    @Override
    public EntityManager createEntityManager(SynchronizationType synchronizationType) {
        return createEntityManager(synchronizationType, Map.of());
    }

    @Override
    public EntityManager createEntityManager(SynchronizationType synchronizationType, Map map) {
        needOpen();
        throw new IllegalStateException("this unit's transactions are resource-local: there is no JTA to synchronize with");
    }

    @Override
    public CriteriaBuilder getCriteriaBuilder() {
        needOpen();
        return criteria;
    }

    @Override
    public Metamodel getMetamodel() {
        needOpen();
        return metamodel;
    }

    @Override
    public boolean isOpen() {
        return isOpen.get();
    }

    @Override
    public void close() {
        if (!isOpen.compareAndSet(true, false)) {
            throw new IllegalStateException("the entity manager factory is closed already");
        }
        if (bean != null) {
            bean.close();
        }
        program.close();
    }

    @Override
    public Map<String, Object> getProperties() {
        needOpen();
        return properties;
    }

    @Override
    public Cache getCache() {
        needOpen();
        return new NoCache(this);
    }

    @Override
    public PersistenceUnitUtil getPersistenceUnitUtil() {
        needOpen();
        return new UnitUtil(this);
    }

    @Override
    public void addNamedQuery(String name, Query query) {
        needOpen();
        statements.addNamed(name, query);
    }

    @Override
    public <T> T unwrap(Class<T> cls) {
        if (cls == Karzhoul.class) {
            return cls.cast(beyond);
        } else if (cls.isInstance(this)) {
            return cls.cast(this);
        }
        throw new PersistenceException("an entity manager factory of Karzhoul is no " + cls.getName());
    }

    @Override
    public <T> void addNamedEntityGraph(String graphName, EntityGraph<T> entityGraph) {
        needOpen();
        graphs.add(graphName, entityGraph);
    }

    @Override
    public String toString() {
        return "Karzhoul unit " + settings.name() + " over " + settings.url();
    }
}
