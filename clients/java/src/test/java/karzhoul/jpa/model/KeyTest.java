package karzhoul.jpa.model;

import static karzhoul.jpa.model.ReaderTest.attribute;
import static karzhoul.jpa.model.ReaderTest.paths;
import static karzhoul.jpa.model.ReaderTest.read;
import static karzhoul.jpa.model.ReaderTest.relation;
import static org.junit.jupiter.api.Assertions.assertEquals;
import static org.junit.jupiter.api.Assertions.assertNull;
import static org.junit.jupiter.api.Assertions.assertSame;
import static org.junit.jupiter.api.Assertions.assertThrows;
import static org.junit.jupiter.api.Assertions.assertTrue;

import jakarta.persistence.Column;
import jakarta.persistence.Embeddable;
import jakarta.persistence.EmbeddedId;
import jakarta.persistence.Entity;
import jakarta.persistence.GeneratedValue;
import jakarta.persistence.Id;
import jakarta.persistence.IdClass;
import jakarta.persistence.JoinColumn;
import jakarta.persistence.ManyToOne;
import jakarta.persistence.MapsId;
import jakarta.persistence.OneToOne;
import java.io.Serializable;
import java.util.List;
import java.util.Optional;
import java.util.UUID;
import org.junit.jupiter.api.Test;

/** Keys of parts, and keys that are those of other entities (chapter 2.4, with the examples of 2.4.1.3). */
class KeyTest {
    @Embeddable
    static class At implements Serializable {
        @Column(name = "row_number") int row;
        String shelf;
        Deep deep;
    }

    @Embeddable
    static class Deep implements Serializable {
        UUID code;
        Long more;
    }

    @Entity
    static class Place {
        @EmbeddedId At at;
        String label;
    }

    @Test
    void anEmbeddedIdOfFourParts() {
        EntityModel place = read(Place.class).of(Place.class);
        KeyModel key = place.key();
        assertEquals(List.of("at.row", "at.shelf", "at.deep.code", "at.deep.more", "label"), paths(place));
        assertEquals("at.deep__code", attribute(place, "at.deep.code").member());
        assertEquals(Optional.of("at"), key.embedded());
        assertEquals(At.class, key.javaClass());
        UUID code = UUID.randomUUID();
        At at = (At) key.fromColumns(List.of(7L, "b", code.toString(), 5L));
        assertTrue(at.row == 7 && at.shelf.equals("b") && at.deep.code.equals(code) && at.deep.more == 5);
        assertEquals(List.of(7L, "b", code.toString(), 5L), key.columnsOf(at));
        Place instance = new Place();
        assertNull(key.of(instance));
        key.assign(instance, at);
        assertSame(at, instance.at);
        assertSame(at, key.of(instance));
        at.deep.more = null;
        String words = assertThrows(IllegalArgumentException.class, () -> key.columnsOf(at)).getMessage();
        assertEquals("the key's part at.deep.more is null", words);
        assertThrows(IllegalArgumentException.class, () -> key.columnsOf(7L));
    }

    @Embeddable
    static class Single implements Serializable {
        String code;
    }

    @Entity
    static class OfSingle {
        @EmbeddedId Single id;
        @ManyToOne @JoinColumn(referencedColumnName = "row_number") Place place;
    }

    @Test
    void anEmbeddedIdOfOnePart() {
        EntityModel entity = read(OfSingle.class, Place.class).of(OfSingle.class);
        assertEquals("id.code", attribute(entity, "id.code").member());
        assertEquals("x", ((Single) entity.key().fromColumns(List.of("x"))).code);
    }

    static class SeatKey implements Serializable {
        private int row;
        private Character letter;

        public int getRow() { return row; }
        public void setRow(int row) { this.row = row; }
        public Character getLetter() { return letter; }
        public void setLetter(Character letter) { this.letter = letter; }
    }

    @Entity
    @IdClass(SeatKey.class)
    static class Seat {
        private Character letter;
        private int row;
        private String mark;

        @Id public Character getLetter() { return letter; }
        public void setLetter(Character letter) { this.letter = letter; }
        @Id public int getRow() { return row; }
        public void setRow(int row) { this.row = row; }
        public String getMark() { return mark; }
        public void setMark(String mark) { this.mark = mark; }
    }

    @Test
    void anIdClass() {
        EntityModel seat = read(Seat.class).of(Seat.class);
        assertEquals(SeatKey.class, seat.key().javaClass());
        assertEquals("id_.row", attribute(seat, "row").member());
        assertEquals(Optional.empty(), seat.key().embedded());
        Seat instance = new Seat();
        instance.setRow(3);
        instance.setLetter('c');
        SeatKey key = (SeatKey) seat.key().of(instance);
        assertTrue(key.row == 3 && key.letter == 'c');
        Seat other = new Seat();
        seat.key().assign(other, key);
        assertTrue(other.row == 3 && other.letter == 'c');
        List<Object> columns = seat.key().columnsOf(key);
        assertEquals(key.letter, ((SeatKey) seat.key().fromColumns(columns)).letter);
    }

    // ---- derived identities ------------------------------------------------------------------------------------------

    @Entity
    static class Employee {
        @Id @GeneratedValue Long id;
        String name;
    }

    static class DependentKey implements Serializable {
        String name;
        Long employee;
    }

    /** Example 1, case (a). */
    @Entity
    @IdClass(DependentKey.class)
    static class Dependent {
        @Id String name;
        @Id @ManyToOne Employee employee;
    }

    @Test
    void aRelationInAnIdClass() {
        UnitModel unit = read(Dependent.class, Employee.class);
        EntityModel dependent = unit.of(Dependent.class);
        assertEquals(List.of("name", "employee.id"), paths(dependent));
        KeyModel.Derived derived = dependent.key().derived().get(0);
        assertSame(relation(dependent, "employee"), derived.from());
        assertEquals(List.of(attribute(dependent, "employee.id")), derived.parts());
        Dependent instance = new Dependent();
        instance.name = "Bob";
        assertNull(((DependentKey) dependent.key().of(instance)).employee);
        instance.employee = new Employee();
        instance.employee.id = 5L;
        DependentKey key = (DependentKey) dependent.key().of(instance);
        assertTrue(key.name.equals("Bob") && key.employee == 5);
        assertEquals(List.of("Bob", 5L), dependent.key().columnsOf(key));
        assertEquals(5L, attribute(dependent, "employee.id").get(instance));
    }

    @Embeddable
    static class DependentId implements Serializable {
        String name;
        long employeeKey;
    }

    /** Example 1, case (b). */
    @Entity
    static class Mapped {
        @EmbeddedId DependentId id;
        @MapsId("employeeKey") @ManyToOne Employee employee;
    }

    @Test
    void mapsIdOfAPart() {
        EntityModel mapped = read(Mapped.class, Employee.class).of(Mapped.class);
        KeyModel.Derived derived = mapped.key().derived().get(0);
        assertEquals(List.of(attribute(mapped, "id.employeeKey")), derived.parts());
        Mapped instance = new Mapped();
        derived.parts().get(0).set(instance, 9L);
        assertEquals(9L, instance.id.employeeKey, "the embedded id is made on the way");
    }

    @Embeddable
    static class PersonId implements Serializable {
        String first;
        String last;
    }

    @Entity
    static class Person {
        @EmbeddedId PersonId id;
    }

    @Embeddable
    static class ChildId implements Serializable {
        String name;
        PersonId parent;
    }

    /** Example 3, case (b): an embedded id within an embedded id. */
    @Entity
    static class Child {
        @EmbeddedId ChildId id;
        @MapsId("parent") @ManyToOne Person parent;
    }

    static class ChildKey implements Serializable {
        String name;
        PersonId parent;
    }

    /** Example 3, case (a): an embedded id within an id class. */
    @Entity
    @IdClass(ChildKey.class)
    static class ChildByClass {
        @Id String name;
        @Id @ManyToOne Person parent;
    }

    @Test
    void aKeyOfPartsWithinAKey() {
        UnitModel unit = read(Child.class, ChildByClass.class, Person.class);
        EntityModel child = unit.of(Child.class);
        assertEquals(List.of("id.name", "id.parent.first", "id.parent.last"), paths(child));
        assertEquals(List.of("id.parent.first", "id.parent.last"),
                child.key().derived().get(0).parts().stream().map(Attribute::path).toList());
        EntityModel byClass = unit.of(ChildByClass.class);
        assertEquals(List.of("name", "parent.id.first", "parent.id.last"), paths(byClass));
        ChildKey key = (ChildKey) byClass.key().fromColumns(List.of("Cy", "Ada", "Lovelace"));
        assertTrue(key.name.equals("Cy") && key.parent.first.equals("Ada") && key.parent.last.equals("Lovelace"));
        ChildByClass instance = new ChildByClass();
        instance.name = "Cy";
        instance.parent = new Person();
        instance.parent.id = key.parent;
        assertEquals(List.of("Cy", "Ada", "Lovelace"), byClass.key().columnsOf(byClass.key().of(instance)));
    }

    /** Example 4, case (a): the whole key is that of another entity. */
    @Entity
    static class History {
        @Id @OneToOne Employee patient;
    }

    /** Example 4, case (b). */
    @Entity
    static class HistoryById {
        @Id Long id;
        @MapsId @OneToOne Employee patient;
    }

    /** Example 5, case (a): the whole key is an embedded id of another entity. */
    @Entity
    static class Medical {
        @Id @OneToOne Person patient;
    }

    /** Example 6, case (b). */
    @Entity
    static class MedicalById {
        @EmbeddedId PersonId id;
        @MapsId @OneToOne Person patient;
    }

    /** A chain: its key is that of what has the key of a third. */
    @Entity
    static class Annex {
        @Id @OneToOne History history;
    }

    @Test
    void aKeyThatIsTheKeyOfAnother() {
        UnitModel unit = read(Annex.class, History.class, HistoryById.class, Medical.class, MedicalById.class, Person.class, Employee.class);
        EntityModel history = unit.of(History.class);
        assertEquals(Long.class, history.key().javaClass());
        History instance = new History();
        assertNull(history.key().of(instance));
        instance.patient = new Employee();
        instance.patient.id = 4L;
        assertEquals(4L, history.key().of(instance));
        assertEquals("patient__id", attribute(history, "patient.id").member());
        EntityModel byId = unit.of(HistoryById.class);
        assertEquals(List.of(attribute(byId, "id")), byId.key().derived().get(0).parts());
        EntityModel medical = unit.of(Medical.class);
        assertEquals(PersonId.class, medical.key().javaClass());
        PersonId key = (PersonId) medical.key().fromColumns(List.of("a", "b"));
        assertEquals("b", key.last);
        assertEquals(List.of("id.first", "id.last"),
                unit.of(MedicalById.class).key().derived().get(0).parts().stream().map(Attribute::path).toList());
        Annex annex = new Annex();
        annex.history = instance;
        assertEquals(4L, unit.of(Annex.class).key().of(annex));
        assertEquals(Long.class, unit.of(Annex.class).key().javaClass());
    }
}
