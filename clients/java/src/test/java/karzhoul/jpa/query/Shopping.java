package karzhoul.jpa.query;

import java.math.BigDecimal;
import java.time.LocalDate;
import java.time.LocalDateTime;
import java.time.LocalTime;
import java.util.ArrayList;
import java.util.List;

/** The rows that queries are tried on; the tests' expected results are worked by hand from them. */
final class Shopping {
    private Shopping() {}

    /*
     * id name  age active mood  born       credit weight cents city   boss team tags
     * 1  Ada   36  yes    GLAD  1815-12-10 10.50  1.5    100   London -    1    a b
     * 2  -     20  no     SAD   -          -      -      -     -      1    -    -
     * 3  Bob   36  yes    -     1900-01-01 0.75   2.25   250   Paris  1    1    b
     * 4  Cy(V) 50  no     CALM  1950-06-15 99.99  -0.5   100   London 3    2    -      discount 10
     *
     * number amount price status placed              hour     person items
     * 10     5      1.50  OPEN   2026-01-01T08:00    08:30:00 1      100 pen 2, 101 ink 3
     * 11     7      2.25  PAID   2026-01-02T09:30    -        1      102 pen 1
     * 12     -      -     -      -                   -        -
     * 13     7      10.00 SENT   2026-02-01T00:00    12:00:00 2
     * 14     1      0.10  OPEN   2026-01-01T08:00    08:30:00 3      103 cup 10
     *
     * Team 1 Red limit 3 leader 1; 2 Blue limit - leader -
     * Tag a, b, c. Place 1/x "one" keeper 1; 1/y - keeper -; 2/x "three" keeper 3.
     * Seat 1a 9.5, 1b -, 2a 3.25.
     */

    /** New instances, in the order in which they are persisted. */
    static List<Object> entities() {
        Shop.Team red = team(1, "Red", 3);
        Shop.Team blue = team(2, "Blue", null);
        Shop.Tag a = tag("a");
        Shop.Tag b = tag("b");
        Shop.Person ada = person(new Shop.Person(), "Ada", 36, true, Shop.Mood.GLAD, LocalDate.of(1815, 12, 10),
                "10.50", 1.5);
        Shop.Person nameless = person(new Shop.Person(), null, 20, false, Shop.Mood.SAD, null, null, null);
        Shop.Person bob = person(new Shop.Person(), "Bob", 36, true, null, LocalDate.of(1900, 1, 1), "0.75", 2.25);
        Shop.Vip cy = person(new Shop.Vip(), "Cy", 50, false, Shop.Mood.CALM, LocalDate.of(1950, 6, 15), "99.99", -0.5);
        cy.discount = 10;
        live(ada, "London", null, red, 100);
        live(nameless, null, ada, null, null);
        live(bob, "Paris", ada, red, 250);
        live(cy, "London", bob, blue, 100);
        ada.tags.addAll(List.of(a, b));
        bob.tags.add(b);
        red.leader = ada;
        List<Object> all = new ArrayList<>(List.of(red, blue, a, b, tag("c"), ada, nameless, bob, cy));
        orders(all, ada, nameless, bob);
        all.addAll(List.of(place(1, "x", "one", ada), place(1, "y", null, null), place(2, "x", "three", bob),
                seat(1, "a", 9.5f), seat(1, "b", null), seat(2, "a", 3.25f)));
        return all;
    }

    private static void orders(List<Object> all, Shop.Person ada, Shop.Person nameless, Shop.Person bob) {
        LocalDateTime first = LocalDateTime.of(2026, 1, 1, 8, 0);
        LocalTime half = LocalTime.of(8, 30);
        Shop.Order ten = order(10, 5, "1.50", Shop.Status.OPEN, first, half, ada);
        Shop.Order eleven = order(11, 7, "2.25", Shop.Status.PAID, LocalDateTime.of(2026, 1, 2, 9, 30), null, ada);
        Shop.Order twelve = order(12, null, null, null, null, null, null);
        Shop.Order thirteen = order(13, 7, "10.00", Shop.Status.SENT, LocalDateTime.of(2026, 2, 1, 0, 0),
                LocalTime.NOON, nameless);
        Shop.Order fourteen = order(14, 1, "0.10", Shop.Status.OPEN, first, half, bob);
        all.addAll(List.of(ten, eleven, twelve, thirteen, fourteen, item(100, "pen", 2, ten), item(101, "ink", 3, ten),
                item(102, "pen", 1, eleven), item(103, "cup", 10, fourteen)));
    }

    private static Shop.Team team(long id, String name, Integer limit) {
        Shop.Team team = new Shop.Team();
        team.id = id;
        team.name = name;
        team.limit = limit;
        return team;
    }

    private static Shop.Tag tag(String code) {
        Shop.Tag tag = new Shop.Tag();
        tag.code = code;
        return tag;
    }

    private static <P extends Shop.Person> P person(P person, String name, int age, boolean active, Shop.Mood mood,
            LocalDate born, String credit, Double weight) {
        person.name = name;
        person.age = age;
        person.active = active;
        person.mood = mood;
        person.born = born;
        person.credit = credit == null ? null : new BigDecimal(credit);
        person.weight = weight;
        return person;
    }

    private static void live(Shop.Person person, String city, Shop.Person boss, Shop.Team team, Integer cents) {
        if (city != null) {
            person.address = new Shop.Address();
            person.address.city = city;
        }
        person.boss = boss;
        person.team = team;
        person.cents = cents == null ? null : new Shop.Cents(cents);
    }

    private static Shop.Order order(long number, Integer amount, String price, Shop.Status status, LocalDateTime placed,
            LocalTime hour, Shop.Person person) {
        Shop.Order order = new Shop.Order();
        order.number = number;
        order.amount = amount;
        order.price = price == null ? null : new BigDecimal(price);
        order.status = status;
        order.placed = placed;
        order.hour = hour;
        order.person = person;
        return order;
    }

    private static Shop.Item item(long id, String what, long count, Shop.Order order) {
        Shop.Item item = new Shop.Item();
        item.id = id;
        item.what = what;
        item.count = count;
        item.order = order;
        return item;
    }

    private static Shop.Place place(int row, String shelf, String label, Shop.Person keeper) {
        Shop.Place place = new Shop.Place();
        place.at = new Shop.PlaceKey(row, shelf);
        place.label = label;
        place.keeper = keeper;
        return place;
    }

    private static Shop.Seat seat(int row, String letter, Float price) {
        Shop.Seat seat = new Shop.Seat();
        seat.row = row;
        seat.letter = letter;
        seat.price = price;
        return seat;
    }
}
