package house;

import jakarta.persistence.EntityManager;
import jakarta.persistence.EntityManagerFactory;
import jakarta.persistence.Persistence;
import jakarta.persistence.Tuple;
import jakarta.persistence.criteria.CriteriaBuilder;
import jakarta.persistence.criteria.CriteriaQuery;
import jakarta.persistence.criteria.CriteriaUpdate;
import jakarta.persistence.criteria.Join;
import jakarta.persistence.criteria.Root;
import jakarta.persistence.criteria.SetJoin;
import jakarta.persistence.criteria.Subquery;
import java.util.List;
import java.util.stream.Stream;

/** Asks by static metamodels that the processor has made, and prints what it finds. */
public final class Main {
    private Main() {}

    /** Runs it. */
    public static void main(String[] words) {
        try (EntityManagerFactory factory = Persistence.createEntityManagerFactory("house");
                EntityManager manager = factory.createEntityManager()) {
            store(manager);
            names(manager);
            CriteriaBuilder cb = manager.getCriteriaBuilder();
            CriteriaQuery<Tuple> ages = cb.createTupleQuery();
            Root<House> house = ages.from(House.class);
            SetJoin<House, Person> person = house.join(House_.people);
            ages.multiselect(house.get(House_.name), cb.max(person.get(Person_.age)).alias("oldest"))
                .groupBy(house.get(House_.name)).orderBy(cb.asc(house.get(House_.name)));
            manager.createQuery(ages).getResultStream()
                .forEach(row -> System.out.println(row.get(0) + ": " + row.get("oldest", Integer.class)));
            CriteriaQuery<String> met = cb.createQuery(String.class);
            Root<Person> who = met.from(Person.class);
            Join<Contact, House> at = who.join(Person_.contact).join(Contact_.houses);
            met.select(at.get(House_.name)).where(cb.equal(who.get(Person_.firstName), "Bob"));
            System.out.println("Bob is met at " + manager.createQuery(met).getSingleResult());
            CriteriaQuery<Long> rooms = cb.createQuery(Long.class);
            Root<House.Room> room = rooms.from(House.Room.class);
            Subquery<Person> of = rooms.subquery(Person.class);
            Root<Person> lodger = of.from(Person.class);
            of.select(lodger).where(cb.equal(lodger.get(Person_.home), room.get(House_Room_.house)),
                cb.lt(lodger.get(Person_.age), 30));
            rooms.select(room.get(House_Room_.number)).where(cb.exists(of));
            System.out.println("rooms " + manager.createQuery(rooms).getResultList());
            manager.getTransaction().begin();
            CriteriaUpdate<Person> older = cb.createCriteriaUpdate(Person.class);
            Root<Person> each = older.from(Person.class);
            older.set(Person_.age, cb.sum(each.get(Person_.age), 1)).where(cb.gt(each.get(Person_.version), 0).not());
            System.out.println(manager.createQuery(older).executeUpdate() + " are older");
            manager.getTransaction().rollback();
        }
    }

    private static void names(EntityManager manager) {
        CriteriaBuilder cb = manager.getCriteriaBuilder();
        CriteriaQuery<String> query = cb.createQuery(String.class);
        Root<Person> person = query.from(Person.class);
        query.select(person.get(Person_.firstName)).where(cb.isNull(person.get(Person_.mood)),
            cb.equal(person.get(Person_.contact).get(Contact_.phone), "1")).orderBy(cb.asc(person.get("key")));
        System.out.println(manager.createQuery(query).getResultList() + " by " + Person_.FIRST_NAME + ", "
            + Person_.key.getDeclaringType().getJavaType().getSimpleName() + ", " + House_.URL.getName());
    }

    private static void store(EntityManager manager) {
        manager.getTransaction().begin();
        House red = new House();
        red.setName("Red");
        House blue = new House();
        blue.setName("Blue");
        Person ada = new Person(1, "Ada", 36);
        Person bob = new Person(2, "Bob", 20);
        Person cy = new Person(3, "Cy", 50);
        ada.home = red;
        bob.home = blue;
        cy.home = red;
        bob.contact.houses.add(red);
        List.of(ada, bob).forEach(person -> person.contact.phone = "1");
        House.Room room = new House.Room();
        room.number = 7;
        room.house = blue;
        Stream.of(red, blue, ada, bob, cy, room).forEach(manager::persist);
        manager.getTransaction().commit();
        manager.clear();
    }
}
