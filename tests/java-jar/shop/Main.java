package shop;

import jakarta.persistence.EntityManager;
import jakarta.persistence.EntityManagerFactory;
import jakarta.persistence.Persistence;
import jakarta.persistence.PersistenceException;
import java.util.Map;

/** Stores two persons and finds them again: {@code Main STORE}. Prints what it finds, or what refuses it. */
public final class Main {
    private Main() {}

    public static void main(String[] words) {
        Map<String, String> properties = Map.of("jakarta.persistence.jdbc.url", "karzhoul:" + words[0]);
        try (EntityManagerFactory factory = Persistence.createEntityManagerFactory("shop", properties);
                EntityManager manager = factory.createEntityManager()) {
            manager.getTransaction().begin();
            Person ada = new Person("Ada", null);
            Person bob = new Person("Bob", ada);
            manager.persist(ada);
            manager.persist(bob);
            manager.getTransaction().commit();
            manager.clear();
            Person found = manager.find(Person.class, bob.id());
            System.out.println(found.name() + " knows " + found.friend().name());
        } catch (PersistenceException refused) {
            System.out.println(refused.getMessage());
        }
    }
}
