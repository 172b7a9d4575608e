package karzhoul.jpa;

import jakarta.persistence.EntityManagerFactory;
import jakarta.persistence.PersistenceException;
import jakarta.persistence.spi.LoadState;
import jakarta.persistence.spi.PersistenceProvider;
import jakarta.persistence.spi.PersistenceUnitInfo;
import jakarta.persistence.spi.ProviderUtil;
import java.util.Map;
import java.util.Optional;
import karzhoul.jpa.context.Factory;
import karzhoul.jpa.context.LoadStates;
import karzhoul.jpa.model.NamedMembers;
import karzhoul.jpa.spi.Units;

/**
 * The Jakarta Persistence provider over the program {@code jpa} (chapter 9.2). An application names it as
 * {@code <provider>} in {@code META-INF/persistence.xml}, or lets it be found by a url that begins with
 * {@code karzhoul:}. Safe for all threads.
 */
@SuppressWarnings("rawtypes")
public final class KarzhoulProvider implements PersistenceProvider {
    private static final ProviderUtil LOADED = new Loaded();

    /** What {@code Persistence} and containers make it by. */
    public KarzhoulProvider() {}

    /**
     * A factory of the unit of this name; null where no {@code persistence.xml} has one that is this provider's.
     *
     * @param properties those that count before the unit's, or null
     * @throws PersistenceException with all that is wrong with the unit; where the program can't be started; or where
     *     the store is refused, since it is damaged or was written with other classes
     */
    @Override
    public EntityManagerFactory createEntityManagerFactory(String unit, Map properties) {
        return Units.find(unit, properties).map(Factory::new).orElse(null);
    }

    /**
     * A factory of a unit that a container has read; null where it is another provider's.
     *
     * @param properties those that count before the unit's, or null
     * @throws PersistenceException as {@link #createEntityManagerFactory}
     */
    @Override
    public EntityManagerFactory createContainerEntityManagerFactory(PersistenceUnitInfo unit, Map properties) {
        return Units.of(unit, properties).map(Factory::new).orElse(null);
    }

    /**
     * Does nothing: a store has no schema, and makes its file at its first opening.
     *
     * @throws PersistenceException where the unit asks to drop what is there, or is wrong
     */
    @Override
    public void generateSchema(PersistenceUnitInfo unit, Map properties) {
        Units.of(unit, properties);
    }

    /** False: a store has no schema. */
    @Override
    public boolean generateSchema(String unit, Map properties) {
        return false;
    }

    /** Tells which values of instances were read, as {@code Persistence.getPersistenceUtil()} asks. */
    @Override
    public ProviderUtil getProviderUtil() {
        return LOADED;
    }

    /** What isn't read is a proxy or a collection of this provider; of anything else it can't tell (chapter 9.8). */
    private static final class Loaded implements ProviderUtil {
        @Override
        public LoadState isLoadedWithoutReference(Object entity, String attribute) {
            if (!LoadStates.isRead(entity)) {
                return LoadState.NOT_LOADED;
            }
            Optional<Object> value = NamedMembers.value(entity, attribute);
            return value.isEmpty() || LoadStates.isReadMember(value.get()) ? LoadState.UNKNOWN : LoadState.NOT_LOADED;
        }

        @Override
        public LoadState isLoadedWithReference(Object entity, String attribute) {
            return isLoadedWithoutReference(entity, attribute);
        }

        @Override
        public LoadState isLoaded(Object entity) {
            return LoadStates.isRead(entity) ? LoadState.UNKNOWN : LoadState.NOT_LOADED;
        }
    }
}
