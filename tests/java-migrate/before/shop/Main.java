package shop;

import jakarta.persistence.Persistence;
import java.util.Map;

/** {@code Main STORE}: stores two persons. */
public final class Main {
    private Main() {}

    public static void main(String[] words) {
        var properties = Map.of("jakarta.persistence.jdbc.url", "karzhoul:" + words[0]);
        try (var factory = Persistence.createEntityManagerFactory("shop", properties);
                var manager = factory.createEntityManager()) {
            manager.getTransaction().begin();
            Person ada = new Person("Ada", "2001-02-03", null);
            Person bob = new Person("Bob", "1999-12-31", ada);
            manager.persist(ada);
            manager.persist(bob);
            manager.flush();
            ada.fax = "12";
            manager.getTransaction().commit();
            System.out.println("stored " + ada.id + " and " + bob.id);
        }
    }
}
