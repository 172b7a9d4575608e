package karzhoul.jpa;

/**
 * The statistics of a factory among the JVM's beans, as {@code karzhoul.jpa:type=Factory,unit="shop",number=1}, where the
 * property {@code karzhoul.jmx} asks for it. {@link Karzhoul.Statistics} says what each is.
 */
public interface FactoryMXBean {
    /** How many calls were answered. */
    long getCalls();

    /** How many of them were refused. */
    long getRefusals();

    /** How many times calls were written. */
    long getTrips();

    /** How many objects the run has made. */
    long getObjects();

    /** How many managers are in use. */
    int getManagers();

    /** How many are held without a transaction. */
    int getIdle();

    /** How many threads wait for one. */
    int getWaiting();

    /** How many runs there were. */
    int getRuns();

    /** How many programs there were. */
    int getPrograms();
}
