/**
 * A Jakarta Persistence provider over the program {@code jpa}.
 *
 * <p>A module with entities opens their packages to this one. Where it also reads this one, what its LAZY relations lead
 * to is read when it is looked at; else at once.
 */
module karzhoul.jpa {
    requires transitive jakarta.persistence;
    requires net.bytebuddy;
    requires java.sql;
    requires java.management;
    requires jdk.jfr;

    exports karzhoul.jpa;
    // For the classes of proxies, which are made in the modules of their entities; not for applications.
    exports karzhoul.jpa.context;

    provides jakarta.persistence.spi.PersistenceProvider with karzhoul.jpa.KarzhoulProvider;
}
