package wide;

import jakarta.persistence.EntityManager;
import jakarta.persistence.Persistence;
import java.math.BigDecimal;
import java.time.LocalDate;
import java.time.LocalDateTime;
import java.time.LocalTime;
import java.util.Date;
import java.util.HashMap;
import java.util.List;
import java.util.Map;

/** {@code Main URL WORD..}: {@code fill N} stores persons, {@code show} tells all that is stored, {@code create} makes tables. */
public final class Main {
    private Main() {}

    public static void main(String[] words) {
        Map<String, Object> properties = new HashMap<>(Map.of("jakarta.persistence.jdbc.url", words[0]));
        if (words[1].equals("create")) {
            properties.put("jakarta.persistence.schema-generation.database.action", "create");
        }
        var factory = Persistence.createEntityManagerFactory("wide", properties);
        try {
            var manager = factory.createEntityManager();
            manager.getTransaction().begin();
            for (var i = 1; i < words.length; i++) {
                if (words[i].equals("show")) {
                    show(manager);
                } else if (words[i].equals("fill")) {
                    fill(manager, Integer.parseInt(words[++i]));
                }
            }
            manager.getTransaction().commit();
        } finally {
            factory.close();
        }
    }

    private static void show(EntityManager manager) {
        for (var text : List.of("SELECT p FROM Person p ORDER BY p.name", "SELECT v FROM Vehicle v ORDER BY v.plate",
                "SELECT a FROM Animal a ORDER BY a.name", "SELECT c FROM Club c ORDER BY c.name",
                "SELECT s FROM Seat s ORDER BY s.at.line, s.at.side",
                "SELECT p.name FROM Person p WHERE p.lost = TRUE ORDER BY p.name",
                "SELECT c.name, COUNT(p) FROM Club c JOIN c.members p GROUP BY c.name ORDER BY c.name",
                "SELECT MAX(c.id) - 100 FROM Club c")) {
            System.out.println(text);
            manager.createQuery(text, Object.class).getResultList().forEach(row -> System.out.println("  "
                    + (row instanceof Object[] items ? List.of(items) : row instanceof Number number ? number.longValue() : row)));
        }
    }

    /** Stores a person, and what it has; each number makes others. */
    private static void fill(EntityManager manager, int number) {
        var seat = new Seat(new SeatId(number, number % 2 == 0 ? "left" : "it's"));
        var club = new Club("club " + number);
        var car = new Car("C" + number, 2 + number, seat);
        var van = new Vehicle("V" + number);
        List.of(seat, club, car, van).forEach(manager::persist);
        var person = new Person("Ada\t\\ " + number + " ü");
        person.born = LocalDate.of(1990, 1, number);
        person.seen = LocalDateTime.of(2026, 2, number, 23, 59, 58, 120_000_000);
        person.wakes = LocalTime.of(6, number);
        person.joined = new Date(1_700_000_000_123L + number);
        person.weight = -0.1 * number;
        person.share = number / 8f;
        person.lost = number % 2 == 1;
        person.level = (short) -number;
        person.debt = new BigDecimal("-12.345").multiply(new BigDecimal(number));
        person.photo = new byte[] {(byte) -number, 0, 1};
        person.mood = number % 2 == 0 ? null : Mood.SAD;
        person.other = Mood.SAD;
        person.stars = number;
        person.home = new Address("Main St " + number, "Ghent");
        person.work = new Address(null, "Graz");
        person.seat = seat;
        person.nicknames.addAll(List.of("z" + number, "a", "z" + number));
        person.places.add(new Address("x", "y" + number));
        person.places.add(new Address("x2", "y"));
        person.marks.put("one", number);
        person.marks.put("two", -number);
        person.pets.addAll(List.of(new Dog("d" + number, 9), new Animal("b" + number), new Cat("c" + number, null)));
        person.clubs.add(club);
        person.vehicles.addAll(List.of(van, car));
        manager.persist(person);
    }
}
