package karzhoul.jpa.query;

import jakarta.persistence.AttributeConverter;
import jakarta.persistence.Column;
import jakarta.persistence.Convert;
import jakarta.persistence.Converter;
import jakarta.persistence.Embeddable;
import jakarta.persistence.Embedded;
import jakarta.persistence.EmbeddedId;
import jakarta.persistence.Entity;
import jakarta.persistence.EnumType;
import jakarta.persistence.Enumerated;
import jakarta.persistence.FetchType;
import jakarta.persistence.GeneratedValue;
import jakarta.persistence.GenerationType;
import jakarta.persistence.Id;
import jakarta.persistence.IdClass;
import jakarta.persistence.ManyToMany;
import jakarta.persistence.ManyToOne;
import jakarta.persistence.NamedAttributeNode;
import jakarta.persistence.NamedEntityGraph;
import jakarta.persistence.NamedQuery;
import jakarta.persistence.NamedSubgraph;
import jakarta.persistence.OneToMany;
import jakarta.persistence.QueryHint;
import jakarta.persistence.Version;
import java.io.Serializable;
import java.math.BigDecimal;
import java.time.LocalDate;
import java.time.LocalDateTime;
import java.time.LocalTime;
import java.util.ArrayList;
import java.util.List;
import java.util.Objects;

/** The entities that queries are tried on: a small shop. */
public final class Shop {
    private Shop() {}

    /** Their classes. */
    public static List<Class<?>> classes() {
        return List.of(Person.class, Vip.class, Order.class, Item.class, Team.class, Tag.class, Place.class, Seat.class,
                Address.class, PlaceKey.class, CentsConverter.class);
    }

    /** Kept by its place. */
    public enum Mood { GLAD, SAD, CALM }

    /** Kept by its name. */
    public enum Status { OPEN, PAID, SENT }

    /** A value of a converter. */
    public record Cents(int count) implements Serializable {}

    /** Keeps cents as their number. */
    @Converter
    public static class CentsConverter implements AttributeConverter<Cents, Integer> {
        @Override
        public Integer convertToDatabaseColumn(Cents value) {
            return value == null ? null : Integer.valueOf(value.count());
        }

        @Override
        public Cents convertToEntityAttribute(Integer column) {
            return column == null ? null : new Cents(column);
        }
    }

    /** Where someone lives. */
    @Embeddable
    public static class Address {
        public String street;
        public String city;

        @Override
        public String toString() {
            return "in " + city;
        }
    }

    /** Someone. */
    @Entity(name = "Person")
    @NamedQuery(name = "Person.byName", query = "SELECT p FROM Person p WHERE p.name = :name")
    @NamedQuery(name = "Person.withOrders", query = "SELECT p FROM Person p WHERE p.orders IS NOT EMPTY",
            hints = @QueryHint(name = "jakarta.persistence.loadgraph", value = "Person.withOrders"))
    @NamedEntityGraph(name = "Person.withOrders",
            attributeNodes = {@NamedAttributeNode("name"), @NamedAttributeNode("team"),
                    @NamedAttributeNode(value = "orders", subgraph = "order")},
            subgraphs = @NamedSubgraph(name = "order", attributeNodes = @NamedAttributeNode("items")))
    @NamedEntityGraph(name = "Person.bosses", attributeNodes = @NamedAttributeNode(value = "boss", subgraph = "boss"),
            subgraphs = @NamedSubgraph(name = "boss",
                    attributeNodes = @NamedAttributeNode(value = "boss", subgraph = "boss")))
    @NamedEntityGraph(includeAllAttributes = true)
    public static class Person {
        @Id
        @GeneratedValue(strategy = GenerationType.IDENTITY)
        public Long id;
        @Version
        public int version;
        public String name;
        public Integer age;
        public boolean active;
        public Mood mood;
        public LocalDate born;
        @Column(scale = 2, precision = 18)
        public BigDecimal credit;
        public Double weight;
        @Convert(converter = CentsConverter.class)
        public Cents cents;
        @Embedded
        public Address address;
        @ManyToOne(fetch = FetchType.LAZY)
        public Person boss;
        @ManyToOne(fetch = FetchType.LAZY)
        public Team team;
        @OneToMany(mappedBy = "person")
        public List<Order> orders = new ArrayList<>();
        @ManyToMany
        public List<Tag> tags = new ArrayList<>();

        @Override
        public String toString() {
            return "Person " + id;
        }
    }

    /** Someone who pays less. */
    @Entity(name = "Vip")
    public static class Vip extends Person {
        public Integer discount;
    }

    /** An order; its name is a word of the language. */
    @Entity(name = "Order")
    public static class Order {
        @Id
        public Long number;
        public Integer amount;
        @Column(scale = 2, precision = 12)
        public BigDecimal price;
        @Enumerated(EnumType.STRING)
        public Status status;
        public LocalDateTime placed;
        public LocalTime hour;
        @ManyToOne(fetch = FetchType.LAZY)
        public Person person;
        @OneToMany(mappedBy = "order")
        public List<Item> items = new ArrayList<>();

        @Override
        public String toString() {
            return "Order " + number;
        }
    }

    /** What is ordered. */
    @Entity(name = "Item")
    public static class Item {
        @Id
        public Long id;
        public String what;
        public Long count;
        @ManyToOne(fetch = FetchType.LAZY)
        public Order order;

        @Override
        public String toString() {
            return "Item " + id;
        }
    }

    /** A team, with names of members that are words of the language. */
    @Entity(name = "Team")
    public static class Team {
        @Id
        public Long id;
        public String name;
        public Integer limit;
        @ManyToOne(fetch = FetchType.LAZY)
        public Person leader;
        @OneToMany(mappedBy = "team")
        public List<Person> members = new ArrayList<>();

        @Override
        public String toString() {
            return "Team " + id;
        }
    }

    /** A tag. */
    @Entity(name = "Tag")
    public static class Tag {
        @Id
        public String code;
        @ManyToMany(mappedBy = "tags")
        public List<Person> persons = new ArrayList<>();

        @Override
        public String toString() {
            return "Tag " + code;
        }
    }

    /** The key of a place. */
    @Embeddable
    public static class PlaceKey implements Serializable {
        public int row;
        public String shelf;

        public PlaceKey() {}

        public PlaceKey(int row, String shelf) {
            this.row = row;
            this.shelf = shelf;
        }

        @Override
        public boolean equals(Object other) {
            return other instanceof PlaceKey key && row == key.row && Objects.equals(shelf, key.shelf);
        }

        @Override
        public int hashCode() {
            return Objects.hash(row, shelf);
        }

        @Override
        public String toString() {
            return row + "/" + shelf;
        }
    }

    /** What has an embedded key. */
    @Entity(name = "Place")
    public static class Place {
        @EmbeddedId
        public PlaceKey at;
        public String label;
        @ManyToOne(fetch = FetchType.LAZY)
        public Person keeper;

        @Override
        public String toString() {
            return "Place " + at;
        }
    }

    /** The key of a seat. */
    public static class SeatKey implements Serializable {
        public int row;
        public String letter;

        public SeatKey() {}

        @Override
        public boolean equals(Object other) {
            return other instanceof SeatKey key && row == key.row && Objects.equals(letter, key.letter);
        }

        @Override
        public int hashCode() {
            return Objects.hash(row, letter);
        }
    }

    /** What has a key of a class. */
    @Entity(name = "Seat")
    @IdClass(SeatKey.class)
    public static class Seat {
        @Id
        public int row;
        @Id
        public String letter;
        public Float price;

        @Override
        public String toString() {
            return "Seat " + row + letter;
        }
    }
}
