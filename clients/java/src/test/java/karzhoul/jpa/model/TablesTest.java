package karzhoul.jpa.model;

import static org.junit.jupiter.api.Assertions.assertEquals;
import static org.junit.jupiter.api.Assertions.assertThrows;

import jakarta.persistence.Column;
import jakarta.persistence.ElementCollection;
import jakarta.persistence.Entity;
import jakarta.persistence.GeneratedValue;
import jakarta.persistence.GenerationType;
import jakarta.persistence.Id;
import jakarta.persistence.IdClass;
import jakarta.persistence.Inheritance;
import jakarta.persistence.InheritanceType;
import jakarta.persistence.JoinColumn;
import jakarta.persistence.JoinTable;
import jakarta.persistence.ManyToMany;
import jakarta.persistence.ManyToOne;
import jakarta.persistence.OneToMany;
import jakarta.persistence.PrimaryKeyJoinColumn;
import jakarta.persistence.SecondaryTable;
import jakarta.persistence.SequenceGenerator;
import jakarta.persistence.Table;
import java.io.Serializable;
import java.util.List;
import java.util.Map;
import org.junit.jupiter.api.Test;

/** The tables that annotations say, by the names of chapters 2.4, 2.10 and 11.1; tests/other-providers.sh has another provider take them. */
class TablesTest {
    @Entity @Table(name = "\"Order\"")
    static class Order {
        @Id @GeneratedValue(strategy = GenerationType.SEQUENCE, generator = "numbers")
        @SequenceGenerator(name = "numbers", sequenceName = "order_numbers", allocationSize = 5)
        Long number;
        @OneToMany(mappedBy = "order") List<Line> lines;
        @ManyToMany @JoinTable(name = "tagged", inverseJoinColumns = @JoinColumn(name = "tag")) List<Tag> tags;
        @ElementCollection List<String> notes;
    }

    @Entity @IdClass(LineId.class)
    static class Line {
        @Id @ManyToOne Order order;
        @Id int place;
        @ManyToOne Line before;
    }

    static class LineId implements Serializable {
        private static final long serialVersionUID = 1L;
        Long order;
        int place;

        @Override
        public boolean equals(Object other) {
            return other instanceof LineId id && id.order.equals(order) && id.place == place;
        }

        @Override
        public int hashCode() {
            return place;
        }
    }

    @Entity @Inheritance(strategy = InheritanceType.JOINED)
    static class Tag {
        @Id @GeneratedValue(strategy = GenerationType.IDENTITY) Long id;
    }

    @Entity @PrimaryKeyJoinColumn(name = "tag_id")
    static class ColoredTag extends Tag {
        @Column(nullable = false) String color;
    }

    @Entity @Inheritance(strategy = InheritanceType.TABLE_PER_CLASS)
    static class Apart {
        @Id Long id;
    }

    @Entity @SecondaryTable(name = "more") @Table(schema = "own")
    static class Twofold {
        @Id Long id;
        @ManyToOne @JoinTable(name = "joined") Apart apart;
    }

    private static Map<?, ?> tables(Class<?>... classes) {
        return (Map<?, ?>) JsonReader.read(Reader.read("unit", List.of(classes)).tables());
    }

    /** The columns of each table, with what they are. */
    private static List<String> columns(Map<?, ?> tables) {
        return ((List<?>) tables.get("tables")).stream().map(Map.class::cast).map(table -> table.get("name") + ": "
                + String.join(", ", ((List<?>) table.get("columns")).stream().map(Map.class::cast)
                        .map(it -> it.get("name") + " " + it.get("is")).toList())).sorted().toList();
    }

    @Test
    void columnsHaveTheNamesOfTheStandard() {
        assertEquals(List.of(
                "\"Order\": number key",
                "ColoredTag: tag_id key, color value",
                "Line: order_number key, place key, before_order_number link, before_place link",
                "Order_notes: Order_number owner, notes value",
                "Tag: id key, DTYPE class",
                "tagged: Order_number owner, tag member"),
                columns(tables(Order.class, Line.class, Tag.class, ColoredTag.class)));
    }

    @Test
    void generatorsAreTold() {
        List<?> generators = (List<?>) tables(Order.class, Line.class, Tag.class, ColoredTag.class).get("generators");
        assertEquals(List.of(
                Map.of("is", "sequence", "name", "order_numbers", "size", 5L, "of", List.of(Map.of("entity", "Order"))),
                Map.of("is", "identity", "entity", "Tag", "of", List.of(Map.of("entity", "Tag")))), generators);
    }

    @Test
    void whatCannotBeWrittenIsToldTogether() {
        var refused = assertThrows(IllegalArgumentException.class, () -> tables(Apart.class, Twofold.class));
        assertEquals(String.join("\n",
                "Apart has a table for each class (TABLE_PER_CLASS): such tables aren't written",
                "Twofold has a @SecondaryTable: such tables aren't written",
                "Twofold has a @JoinTable for apart, which leads to one: such tables aren't written",
                "the table own.Twofold is in a schema or a catalog: such tables aren't written"), refused.getMessage());
    }
}
