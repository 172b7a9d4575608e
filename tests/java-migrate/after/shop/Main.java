package shop;

import jakarta.persistence.Persistence;
import jakarta.persistence.PersistenceException;
import java.time.LocalDate;
import java.util.Map;

/** {@code Main STORE ADOPT}: tells who is stored, and that a day isn't stored twice; or what refuses the store. */
public final class Main {
    private Main() {}

    public static void main(String[] words) {
        var properties = Map.of("jakarta.persistence.jdbc.url", "karzhoul:" + words[0], "karzhoul.adopt", words[1]);
        try (var factory = Persistence.createEntityManagerFactory("shop", properties);
                var manager = factory.createEntityManager()) {
            for (Person each : manager.createQuery("SELECT p FROM Person p ORDER BY p.name", Person.class).getResultList()) {
                System.out.println(each.name + " " + each.version + " " + each.born + " "
                        + (each.friend == null ? "" : each.friend.name) + each.words);
            }
            manager.getTransaction().begin();
            manager.persist(new Person("Cy", LocalDate.of(1999, 12, 31)));
            manager.getTransaction().commit();
        } catch (PersistenceException refused) {
            Throwable why = refused.getCause() == null ? refused : refused.getCause();
            System.out.println(why.getMessage().lines().findFirst().orElse(""));
        }
    }
}
