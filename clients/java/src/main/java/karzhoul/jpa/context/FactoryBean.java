package karzhoul.jpa.context;

import jakarta.persistence.PersistenceException;
import java.lang.management.ManagementFactory;
import java.util.concurrent.atomic.AtomicInteger;
import javax.management.JMException;
import javax.management.ObjectName;
import javax.management.StandardMBean;
import karzhoul.jpa.FactoryMXBean;
import karzhoul.jpa.Karzhoul;

/** Tells a factory's statistics among the JVM's beans. */
final class FactoryBean implements FactoryMXBean, AutoCloseable {
    private static final AtomicInteger LAST = new AtomicInteger();

    private final Karzhoul told;
    private final ObjectName name;

    /** @throws PersistenceException where it can't be told there */
    FactoryBean(String unit, Karzhoul told) {
        this.told = told;
        try {
            name = new ObjectName("karzhoul.jpa:type=Factory,unit=" + ObjectName.quote(unit) + ",number=" + LAST.incrementAndGet());
            ManagementFactory.getPlatformMBeanServer().registerMBean(new StandardMBean(this, FactoryMXBean.class, true), name);
        } catch (JMException e) {
            throw new PersistenceException("the factory's statistics can't be a bean (karzhoul.jmx): " + e.getMessage(), e);
        }
    }

    @Override
    public void close() {
        try {
            ManagementFactory.getPlatformMBeanServer().unregisterMBean(name);
        } catch (JMException e) {
            System.getLogger("karzhoul").log(System.Logger.Level.DEBUG, "a bean is gone already", e);
        }
    }

    @Override
    public long getCalls() {
        return told.statistics().calls();
    }

    @Override
    public long getRefusals() {
        return told.statistics().refusals();
    }

    @Override
    public long getTrips() {
        return told.statistics().trips();
    }

    @Override
    public long getObjects() {
        return told.statistics().objects();
    }

    @Override
    public int getManagers() {
        return told.statistics().managers();
    }

    @Override
    public int getIdle() {
        return told.statistics().idle();
    }

    @Override
    public int getWaiting() {
        return told.statistics().waiting();
    }

    @Override
    public int getRuns() {
        return told.statistics().runs();
    }

    @Override
    public int getPrograms() {
        return told.statistics().programs();
    }
}
