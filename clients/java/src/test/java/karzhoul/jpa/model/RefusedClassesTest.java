package karzhoul.jpa.model;

import static org.junit.jupiter.api.Assertions.assertEquals;
import static org.junit.jupiter.api.Assertions.assertThrows;
import static org.junit.jupiter.api.Assertions.assertTrue;

import jakarta.persistence.Access;
import jakarta.persistence.AccessType;
import jakarta.persistence.AttributeConverter;
import jakarta.persistence.AttributeOverride;
import jakarta.persistence.CollectionTable;
import jakarta.persistence.Column;
import jakarta.persistence.Convert;
import jakarta.persistence.Converter;
import jakarta.persistence.DiscriminatorValue;
import jakarta.persistence.ElementCollection;
import jakarta.persistence.Embeddable;
import jakarta.persistence.Embedded;
import jakarta.persistence.EmbeddedId;
import jakarta.persistence.Entity;
import jakarta.persistence.EntityListeners;
import jakarta.persistence.Enumerated;
import jakarta.persistence.GeneratedValue;
import jakarta.persistence.GenerationType;
import jakarta.persistence.Id;
import jakarta.persistence.IdClass;
import jakarta.persistence.JoinColumn;
import jakarta.persistence.JoinColumns;
import jakarta.persistence.JoinTable;
import jakarta.persistence.ManyToOne;
import jakarta.persistence.MapKey;
import jakarta.persistence.MapKeyColumn;
import jakarta.persistence.MapsId;
import jakarta.persistence.NamedNativeQuery;
import jakarta.persistence.NamedQuery;
import jakarta.persistence.OneToMany;
import jakarta.persistence.OneToOne;
import jakarta.persistence.OrderBy;
import jakarta.persistence.OrderColumn;
import jakarta.persistence.PrePersist;
import jakarta.persistence.PrimaryKeyJoinColumn;
import jakarta.persistence.SequenceGenerator;
import jakarta.persistence.Table;
import jakarta.persistence.TableGenerator;
import jakarta.persistence.Temporal;
import jakarta.persistence.TemporalType;
import jakarta.persistence.UniqueConstraint;
import jakarta.persistence.Version;
import java.time.LocalDateTime;
import java.util.ArrayList;
import java.util.HashMap;
import java.util.List;
import java.util.Map;
import java.util.Set;
import java.util.stream.Stream;
import org.junit.jupiter.api.DynamicTest;
import org.junit.jupiter.api.Test;
import org.junit.jupiter.api.TestFactory;

/** Each wrong class gets its words: the class, the member, what is wrong and what to do. */
class RefusedClassesTest {
    private static final String HERE = RefusedClassesTest.class.getName() + "$";

    /** The faults of some classes: the place after the name of this class, what is wrong, and the remedy. */
    private record Row(List<Class<?>> classes, String place, String what, String remedy) {}

    private static Row row(String place, String what, String remedy, Class<?>... classes) {
        return new Row(List.of(classes), place, what, remedy);
    }

    @Entity static class Good { @Id int id; @ManyToOne Good other; String name; }

    // ---- classes -----------------------------------------------------------------------------------------------------
    static class Unannotated { int id; }
    @Entity interface AnInterface {}
    @Entity enum AnEnum { ONE }
    @Entity record ARecord(@Id int id) {}
    @Entity @Embeddable static class Both { @Id int id; }
    @Entity static class NoConstructor { @Id int id; NoConstructor(int id) { this.id = id; } }
    @Entity class Inner { @Id int id; }
    @Entity(name = "Good") @Table(name = "other") static class SameName { @Id int id; }
    @Entity @Table(name = "good") static class SameTable { @Id int id; }
    @Entity static class Above { @Id int id; }
    @Entity static class Below extends Above { int more; }
    @Entity @DiscriminatorValue("Above") static class SameValue extends Above { }
    @Entity @Table(uniqueConstraints = @UniqueConstraint(columnNames = {"a", "c"})) static class UniqueOfNone { @Id int id; int a; }
    @Entity @Table(uniqueConstraints = @UniqueConstraint(columnNames = {"a", "b", "c", "d", "e"}))
    static class UniqueOfFive { @Id int id; int a; int b; int c; int d; int e; }
    @Entity static class JoinedUniquely {
        @Id int id;
        @OneToMany @JoinTable(name = "kept", inverseJoinColumns = @JoinColumn(name = "good"),
                uniqueConstraints = @UniqueConstraint(columnNames = "good"))
        List<Good> goods;
    }
    @Entity static class CollectedUniquely {
        @Id int id;
        @ElementCollection @CollectionTable(uniqueConstraints = @UniqueConstraint(columnNames = {"CollectedUniquely_id", "names"}))
        List<String> names;
    }
    @Entity static class UniqueMap { @Id int id; @Column(unique = true) java.util.HashMap<String, String> names; }
    @Entity @Table(uniqueConstraints = @UniqueConstraint(columnNames = {"left", "right"})) static class Trunk { @Id int id; }
    @Entity static class LeftBough extends Trunk { int left; }
    @Entity static class RightBough extends Trunk { int right; }
    @Entity @NamedNativeQuery(name = "n", query = "SELECT 1") static class Native { @Id int id; }
    @Entity @NamedQuery(name = "q", query = "x") static class Query1 { @Id int id; }
    @Entity @NamedQuery(name = "q", query = "y") static class Query2 { @Id int id; }

    // ---- members -----------------------------------------------------------------------------------------------------
    @Entity static class FinalField { @Id int id; final String name = ""; }
    @Entity static class Stray { @Id int id; @Column String getName() { return null; } void setName(String name) {} }
    @Entity static class StrayField { @Column String name; @Id int getId() { return 0; } void setId(int id) {} }
    @Entity static class NoSetter { @Id int getId() { return 0; } void setId(int id) {} @Column String getName() { return null; } }
    @Entity static class NoGetter { @Id int getId() { return 0; } void setId(int id) {} @Column String name() { return null; } }
    @Entity @Access(AccessType.FIELD) static class Twice { @Id int id; String name;
        @Access(AccessType.PROPERTY) String getName() { return null; } void setName(String name) {} }
    @Entity static class Hiding extends Above { String id; }
    @Entity static class NoType { @Id int id; Object value; }
    @Entity static class Forgotten { @Id int id; Good good; }
    @Entity static class ListOfTexts { @Id int id; List<String> texts; }
    @Entity static class ForgottenMany { @Id int id; List<Good> goods; }
    @Entity static class Elements { @Id int id; @ElementCollection ArrayList<String> tags; }
    @Entity static class RawElements { @Id int id; @SuppressWarnings("rawtypes") @ElementCollection List tags; }
    @Embeddable static class Leading { @ManyToOne Good good; }
    @Entity static class LeadingElements { @Id int id; @ElementCollection List<Leading> tags; }
    @Entity static class OrderedSet { @Id int id; @ElementCollection @OrderColumn Set<String> tags; }
    @Entity static class KeyedByGood { @Id int id; @ElementCollection Map<Good, String> tags; }
    @Entity static class ElementsTable { @Id int id; @ElementCollection @CollectionTable(name = "Good") Set<String> tags; }
    @Entity static class SameColumn { @Id int id; String name; @Column(name = "NAME") String other; }
    @Entity static class UniqueCopy {
        @Id int id; @ManyToOne @JoinColumn(name = "good") Good good;
        @Column(name = "good", unique = true, insertable = false, updatable = false) int number;
    }
    @Entity static class ReadOnly { @Id int id; @Column(insertable = false) String name; }
    @Entity static class NeverWritten { @Id int id; @Column(insertable = false, updatable = false, nullable = false) String name; }
    @Entity static class CopyOfOther { @Id int id; @ManyToOne @JoinColumn(name = "good_id") Good good;
        @Column(name = "good_id", insertable = false, updatable = false) String goodId; }
    @Entity static class OfEntities { @Id int id; java.util.ArrayList<Good> goods; }
    @Entity static class NoEnum { @Id int id; @Enumerated String name; }
    @Entity static class NoDate { @Id int id; @Temporal(TemporalType.DATE) LocalDateTime at; }
    @Entity static class NoKeyGenerated { @Id int id; @GeneratedValue int number; }
    @Entity static class NoEmbeddable { @Id int id; @Embedded Good good; }
    @Embeddable static class Part { String text; }
    @Embeddable record RecordPart(String text) {}
    @Entity static class OfRecord { @Id int id; @Embedded RecordPart part; }
    @Entity static class WrongOverride { @Id int id; @AttributeOverride(name = "txt", column = @Column(name = "x")) Part part; }
    @Entity static class WrongConvert { @Id int id; @Convert(attributeName = "txt", disableConversion = true) Part part; }
    @Entity @AttributeOverride(name = "nam", column = @Column(name = "x")) static class WrongByClass { @Id int id; String name; }
    @Embeddable static class Circle { Circle circle; }
    @Entity static class Round { @Id int id; Circle circle; }

    // ---- keys and versions -------------------------------------------------------------------------------------------
    @Entity static class NoKey { String name; }
    @Entity static class TwoIds { @Id int one; @Id int two; }
    @Embeddable static class Five { int a; int b; int c; int d; int e; }
    @Entity static class FiveParts { @EmbeddedId Five id; }
    @Entity static class MixedKeys { @EmbeddedId Part id; @Id int other; }
    @Embeddable static class WithRelation { @ManyToOne Good good; }
    @Entity static class RelationInKey { @EmbeddedId WithRelation id; }
    @Entity static class GeneratedText { @Id @GeneratedValue String id; }
    @Entity static class UuidNumber { @Id @GeneratedValue(strategy = GenerationType.UUID) Long id; }
    @Entity static class GeneratedEmbedded { @EmbeddedId @GeneratedValue Part id; }
    static class TwoKey { int one; }
    @Entity @IdClass(TwoKey.class) static class MissingPart { @Id int one; @Id int two; }
    static class OtherKey { int one; long two; }
    @Entity @IdClass(OtherKey.class) static class OtherPart { @Id int one; @Id int two; }
    @Entity @IdClass(OtherKey.class) static class GeneratedPart { @Id @GeneratedValue int one; @Id long two; }
    @Entity static class KeyBelow extends Above { @Id int other; }
    @Entity static class SerializedKey { @Id java.util.BitSet id; }
    @Entity static class ConvertedKey { @Id @Convert(converter = Upper.class) String id; }
    @Embeddable static class ConvertedPart { @Convert(converter = Upper.class) String code; }
    @Entity static class OfConvertedPart { @EmbeddedId ConvertedPart id; }
    @Entity static class VersionBelow extends Above { @Version int version; }
    @Entity static class TwoVersions { @Id int id; @Version int one; @Version int two; }
    @Entity static class VersionOfTime { @Id int id; @Version LocalDateTime at; }
    @Entity static class TakesNone { @Id @GeneratedValue(generator = "g") @SequenceGenerator(name = "g", allocationSize = 0) int id; }
    @Entity static class SharesOne { @Id @GeneratedValue(generator = "one") @TableGenerator(name = "one", pkColumnValue = "x") int id; }
    @Entity static class SharesToo {
        @Id @GeneratedValue(generator = "two") @TableGenerator(name = "two", pkColumnValue = "x", initialValue = 7) int id;
    }
    @Entity static class WrongMapsId { @Id String id; @MapsId @OneToOne Good good; }
    @Entity static class GeneratedMapsId { @Id @GeneratedValue int id; @MapsId @OneToOne Good good; }
    @Entity static class Egg { @Id @OneToOne Hen hen; }
    @Entity static class Hen { @Id @OneToOne Egg egg; }

    // ---- relations ---------------------------------------------------------------------------------------------------
    @Entity static class NoTarget { @Id int id; @ManyToOne Unannotated other; }
    @Entity static class NoMappedBy { @Id int id; @OneToMany(mappedBy = "othr") List<Good> goods; }
    @Entity static class MappedElsewhere { @Id int id; @OneToMany(mappedBy = "other") List<Good> goods; }
    @Entity static class Doubled { @Id int id; @ManyToOne Doubled up;
        @OneToMany(mappedBy = "up") List<Doubled> one; @OneToMany(mappedBy = "up") List<Doubled> two; }
    @Entity static class OneInList { @Id int id; @ManyToOne List<Good> goods; }
    @Entity static class ManyInOne { @Id int id; @OneToMany Good good; }
    @Entity static class OfMap { @Id int id; @OneToMany @MapKeyColumn Map<String, Good> goods; }
    @Entity static class NoMapKey { @Id int id; @OneToMany @MapKey(name = "nam") Map<String, Good> goods; }
    @Entity static class KeyedList { @Id int id; @OneToMany @MapKey List<Good> goods; }
    @Entity static class InPlaces { @Id int id; @OneToMany @OrderColumn Set<Good> goods; }
    @Entity static class InTwoOrders { @Id int id; @OneToMany @OrderColumn @OrderBy("id") List<Good> goods; }
    @Entity static class InArrayList { @Id int id; @OneToMany ArrayList<Good> goods; }
    @SuppressWarnings("rawtypes") @Entity static class RawList { @Id int id; @OneToMany List goods; }
    @Entity static class WrongOrder { @Id int id; @OneToMany @OrderBy("nam DESC") List<Good> goods; }
    @Entity static class ByOtherColumn { @Id int id; @ManyToOne @JoinColumn(referencedColumnName = "name") Good good; }
    @Entity static class UniqueJoin { @Id int id; @ManyToOne @JoinColumns({
        @JoinColumn(name = "a", unique = true), @JoinColumn(name = "b")}) Good good; }
    @Entity static class ReadOnlyJoin { @Id int id; @ManyToOne @JoinColumn(updatable = false) Good good; }
    @Entity static class TwoSorts { @Id int id; @ManyToOne @OneToOne Good good; }
    @Entity static class OldOneToOne { @Id int id; @OneToOne @PrimaryKeyJoinColumn Good good; }

    // ---- converters and callbacks ------------------------------------------------------------------------------------
    @Converter static class NoConverter {}
    @Converter static class ToNothing implements AttributeConverter<String, Object> {
        @Override public Object convertToDatabaseColumn(String text) { return text; }
        @Override public String convertToEntityAttribute(Object kept) { return null; }
    }
    @Converter(autoApply = true) static class Upper implements AttributeConverter<String, String> {
        @Override public String convertToDatabaseColumn(String text) { return text; }
        @Override public String convertToEntityAttribute(String text) { return text; }
    }
    @Converter(autoApply = true) static class Lower extends Upper {}
    @Converter static class Raising extends Upper { Raising() { throw new IllegalStateException("no"); } }
    @Entity static class OtherConverter { @Id int id; @Convert(converter = Upper.class) Integer number; }
    @Entity static class TwoCallbacks { @Id int id; @PrePersist void one() {} @PrePersist void two() {} }
    @Entity static class WithParameter { @Id int id; @PrePersist void one(Object other) {} }
    @Entity static class StaticCallback { @Id int id; @PrePersist static void one() {} }
    static class OfGood { @PrePersist void hear(Good good) {} }
    @Entity @EntityListeners(OfGood.class) static class HeardWrongly { @Id int id; }
    static class Silent { Silent(int size) {} @PrePersist void hear(Object any) {} }
    @Entity @EntityListeners(Silent.class) static class HeardByNone { @Id int id; }

    private static List<Row> rows() {
        return List.of(
                row("Unannotated", "it has none of @Entity, @Embeddable, @MappedSuperclass and @Converter",
                        "Annotate it, or leave it out of the unit", Unannotated.class),
                row("AnInterface", "an interface, an enum or a record is no entity", "Make it a class", AnInterface.class),
                row("AnEnum", "an interface, an enum or a record is no entity", "Make it a class", AnEnum.class),
                row("ARecord", "an interface, an enum or a record is no entity", "Make it a class", ARecord.class),
                row("Both", "it is an entity, and an embeddable or a mapped superclass too", "Leave one of them", Both.class),
                row("NoConstructor", "it has no constructor without parameters", "Add one; it may be protected", NoConstructor.class),
                row("Inner", "it is an inner class", "Make it static", Inner.class),
                row("SameName", "its name is Good, as that of " + HERE + "Good", "Give it another one, by @Entity(name = ..)",
                        Good.class, SameName.class),
                row("SameTable", HERE + "Good has the table good too", "Name one of them otherwise, by @Table or @JoinTable",
                        Good.class, SameTable.class),
                row("Below", "the class above it, " + HERE + "Above, is an entity, and isn't among those of the unit",
                        "Add it as <class> to persistence.xml", Below.class),
                row("SameValue", "its discriminator is Above, as that of " + HERE + "Above", "Give it another @DiscriminatorValue",
                        Above.class, SameValue.class),
                row("UniqueOfNone", "@UniqueConstraint names the column \"c\", which it doesn't have, or has only beside others that "
                        + "aren't named", "Name columns of its attributes, and all columns of a relation to one", UniqueOfNone.class),
                row("UniqueOfFive.a", "a unique constraint of 5 columns isn't kept", "Let it have at most 4", UniqueOfFive.class),
                row("JoinedUniquely.goods", "a unique constraint of its join table isn't kept: it is of [good], and a pair of "
                        + "[joineduniquely_id] and [good] is kept once",
                        "Leave it out, or make the table an entity with the constraint", JoinedUniquely.class, Good.class),
                row("CollectedUniquely.names", "a unique constraint of its collection table isn't kept: it is of "
                        + "[CollectedUniquely_id, names], where [collecteduniquely_id] is the owner",
                        "Declare a Set of basic values, or make the elements entities", CollectedUniquely.class),
                row("UniqueMap.names", "what is kept as Java writes it isn't unique", "Use a number, a String, a date or an enum",
                        UniqueMap.class),
                row("LeftBough", "a unique constraint is of columns of classes beside each other",
                        "Name columns of one class, and of those above it", Trunk.class, LeftBough.class, RightBough.class),
                row("Native", "there is no SQL", "Write the query in JPQL, as @NamedQuery", Native.class),
                row("Query2", "its query q has the name of one of " + HERE + "Query1", "Name one of them otherwise",
                        Query1.class, Query2.class),

                row("FinalField.name", "a persistent field can't be final", "Leave out final, or add @Transient", FinalField.class),
                row("Stray.getName", "its annotations aren't looked at, since the class is accessed by its fields",
                        "Move them to the field, or add @Access(PROPERTY)", Stray.class),
                row("StrayField.name", "its annotations aren't looked at, since the class is accessed by its properties",
                        "Move them to the getter, or add @Access(FIELD)", StrayField.class),
                row("NoSetter.getName", "the property name has no setter", "Add one", NoSetter.class),
                row("NoGetter.name", "it is annotated, and no getter", "Annotate the method get.. without parameters", NoGetter.class),
                row("Twice.name", "it is persistent as a field and as a property", "Add @Transient to one of them", Twice.class),
                row("Hiding.id", "a class above has a member of this name too", "Name it otherwise, or add @Transient",
                        Above.class, Hiding.class),
                row("NoType.value", "java.lang.Object is no basic type, no enum, and not Serializable",
                        "Add @Convert, @Embedded with an @Embeddable class, or @Transient", NoType.class),
                row("Forgotten.good", "it leads to an entity, and doesn't say how", "Add @ManyToOne or @OneToOne",
                        Forgotten.class, Good.class),
                row("ForgottenMany.goods", "it has entities, and doesn't say how",
                        "Declare it as List, Set or Collection, with @OneToMany or @ManyToMany", ForgottenMany.class, Good.class),
                row("ListOfTexts.texts", "a collection is no basic value",
                        "Add @OneToMany or @ManyToMany, or @Convert, or @Transient; or declare it as a class that is Serializable, as"
                        + " ArrayList", ListOfTexts.class),
                row("Elements.tags", "it is declared as java.util.ArrayList", "Declare it as List, Set, Collection or Map",
                        Elements.class),
                row("RawElements.tags", "its collection doesn't say of what it is", "Write its type, or targetClass",
                        RawElements.class),
                row("Leading.good", "an element of a collection has no relations and collections of its own",
                        "Make the elements entities, with @OneToMany and cascade ALL", LeadingElements.class, Good.class),
                row("OrderedSet.tags", "@OrderColumn orders a List", "Declare it as List", OrderedSet.class),
                row("KeyedByGood.tags", "keys of " + HERE + "Good aren't kept: keys of maps are basic values or enums",
                        "Make the elements entities, with an attribute by which they are found", KeyedByGood.class, Good.class),
                row("ElementsTable.tags", HERE + "Good has the table Good too",
                        "Name one of them otherwise, by @CollectionTable", ElementsTable.class, Good.class),
                row("SameColumn.other", HERE + "SameColumn.name has the column NAME too",
                        "Name one of them otherwise, by @Column, @JoinColumn or @AttributeOverride", SameColumn.class),
                row("UniqueCopy.number", "it reads the column of a relation, and says that it is unique", "Say so at the @JoinColumn",
                        UniqueCopy.class, Good.class),
                row("ReadOnly.name", "a column that is updated, and isn't inserted, isn't kept",
                        "Write updatable = false too, leave insertable out, or add @Transient", ReadOnly.class),
                row("NeverWritten.name", "it may not be null, and nothing writes it",
                        "Leave insertable and updatable out, or give it the column of a relation", NeverWritten.class),
                row("CopyOfOther.goodId", "it reads the column of good, which is of java.lang.Integer", "Declare it as that",
                        CopyOfOther.class, Good.class),
                row("OfEntities.goods", "it has entities, and doesn't say how",
                        "Declare it as List, Set or Collection, with @OneToMany or @ManyToMany", OfEntities.class, Good.class),
                row("NoEnum.name", "it has @Enumerated, and is no enum", "Leave @Enumerated out", NoEnum.class),
                row("NoDate.at", "it has @Temporal, and is no Date or Calendar", "Leave @Temporal out", NoDate.class),
                row("NoKeyGenerated.number", "it is generated, and is no key", "Leave @GeneratedValue out, and give it in @PrePersist",
                        NoKeyGenerated.class),
                row("NoEmbeddable.good", HERE + "Good is no embeddable", "Annotate that class with @Embeddable", NoEmbeddable.class, Good.class),
                row("RecordPart", "a record, an interface or an abstract class is no embeddable",
                        "Make it a class with a constructor without parameters", OfRecord.class),
                row("WrongOverride.part", "@AttributeOverride names \"txt\", which " + HERE + "Part doesn't have",
                        "Name one of its attributes", WrongOverride.class),
                row("WrongConvert.part", "@Convert names \"txt\", which " + HERE + "Part doesn't have",
                        "Name one of its attributes", WrongConvert.class),
                row("WrongByClass", "@AttributeOverride names \"nam\", which it doesn't have",
                        "Name one of its attributes, or of those of its mapped superclasses", WrongByClass.class),
                row("Circle.circle", "embeddables are nested more than 8 deep", "Leave out the circle, or add @Transient", Round.class),

                row("NoKey", "it has no key", "Annotate a field or a getter with @Id or @EmbeddedId", NoKey.class),
                row("TwoIds", "it has 2 members with @Id, and no class for its keys", "Add @IdClass, or use @EmbeddedId", TwoIds.class),
                row("FiveParts", "its key has 5 parts", "Let it have one to 4", FiveParts.class),
                row("MixedKeys", "it has @EmbeddedId and another key", "Leave one of them out", MixedKeys.class),
                row("WithRelation.good", "an embedded id has no relations", "Keep the key's value, and map the relation with @MapsId",
                        RelationInKey.class, Good.class),
                row("GeneratedText.id", "a generated number is no java.lang.String", "Declare it as Long, or use GenerationType.UUID",
                        GeneratedText.class),
                row("UuidNumber.id", "a UUID is no java.lang.Long", "Declare it as java.util.UUID or String", UuidNumber.class),
                row("GeneratedEmbedded.id", "an embedded id isn't generated", "Leave out @GeneratedValue, or use @Id",
                        GeneratedEmbedded.class),
                row("TwoKey", "it has no member two, as the key of " + HERE + "MissingPart has", "Add one of the same type",
                        MissingPart.class),
                row("OtherKey.two", "it is of long, and in " + HERE + "OtherPart of int", "Give both the same type", OtherPart.class),
                row("GeneratedPart.one", "a part of a key isn't generated", "Leave out @GeneratedValue, or make it the whole key",
                        GeneratedPart.class),
                row("KeyBelow.other", "the key belongs into the class at the top of the hierarchy", "Leave out @Id here",
                        Above.class, KeyBelow.class),
                row("SerializedKey.id", "java.util.BitSet is no type of a key", "Use a number, a String, a date, a UUID or an enum",
                        SerializedKey.class),
                row("ConvertedKey.id", "a key and a version take no converter", "Leave out @Convert, and convert in Java",
                        ConvertedKey.class),
                row("ConvertedPart.code", "a key and a version take no converter", "Leave out @Convert, and convert in Java",
                        OfConvertedPart.class),
                row("VersionBelow.version", "the version belongs into the class at the top of the hierarchy",
                        "Move @Version to " + HERE + "Above", Above.class, VersionBelow.class),
                row("TwoVersions.two", "there is another @Version", "Leave one of them out", TwoVersions.class),
                row("VersionOfTime.at", "a version of java.time.LocalDateTime isn't kept: versions are counted",
                        "Declare it as int, long, short, or one of their classes", VersionOfTime.class),
                row("TakesNone.id", "the generator g takes 0 keys at a time", "Give it an allocationSize of at least 1", TakesNone.class),
                row("SharesToo.id", "its generator counts in the row x as that of " + HERE
                        + "SharesOne, and begins or allocates otherwise", "Give both the same initialValue and allocationSize",
                        SharesOne.class, SharesToo.class),
                row("WrongMapsId.good", "@MapsId names parts of the key that aren't those of the key of " + HERE + "Good",
                        "Name a part of the same type", WrongMapsId.class, Good.class),
                row("GeneratedMapsId.good", "the key is generated, and @MapsId gives it too", "Leave out @GeneratedValue",
                        GeneratedMapsId.class, Good.class),
                row("Egg", "its key can't be read, or is made of itself", "Give it an @Id of its own", Egg.class, Hen.class),

                row("NoTarget.other", "it leads to " + HERE + "Unannotated, which is no entity of the unit",
                        "Annotate that class with @Entity, and list it in persistence.xml", NoTarget.class),
                row("NoMappedBy.goods", "mappedBy names othr, which is no @ManyToOne of Good",
                        "Name the member there that owns the relation", NoMappedBy.class, Good.class),
                row("MappedElsewhere.goods", "mappedBy names other of Good, which leads to " + HERE + "Good",
                        "Let it lead to " + HERE + "MappedElsewhere", MappedElsewhere.class, Good.class),
                row("Doubled.two", "another relation is mapped by up too", "Leave one of them", Doubled.class),
                row("OneInList.goods", "a relation to one can't be a collection", "Use @OneToMany or @ManyToMany",
                        OneInList.class, Good.class),
                row("ManyInOne.good", "a relation to many needs a collection", "Declare it as List, Set or Collection, or use @ManyToOne",
                        ManyInOne.class, Good.class),
                row("OfMap.goods", "keys of maps of entities aren't kept by themselves",
                        "Let an attribute of the members be the key, with @MapKey(name)", OfMap.class, Good.class),
                row("NoMapKey.goods", "@MapKey names \"nam\", which is no attribute of Good",
                        "Name an attribute of the members, or leave the name out", NoMapKey.class, Good.class),
                row("KeyedList.goods", "it has @MapKey, and is no map", "Declare it as Map", KeyedList.class, Good.class),
                row("InPlaces.goods", "@OrderColumn orders a List", "Declare it as List", InPlaces.class, Good.class),
                row("InTwoOrders.goods", "it has @OrderColumn and @OrderBy", "Leave one of them", InTwoOrders.class, Good.class),
                row("InArrayList.goods", "it is declared as java.util.ArrayList", "Declare it as List, Set or Collection",
                        InArrayList.class, Good.class),
                row("RawList.goods", "its collection doesn't say of which entity it is", "Write its type, or targetEntity", RawList.class),
                row("WrongOrder.goods", "@OrderBy names \"nam DESC\", which is no attribute of Good, with ASC or DESC",
                        "Name attributes of the members", WrongOrder.class, Good.class),
                row("ByOtherColumn.good", "it refers to the column name of Good, which is no part of its key",
                        "Leave referencedColumnName out, or make that column the key", ByOtherColumn.class, Good.class),
                row("UniqueJoin.good", "one of several join columns isn't unique by itself",
                        "Name all of them in @UniqueConstraint of @Table", UniqueJoin.class, Good.class),
                row("ReadOnlyJoin.good", "a relation whose column isn't written isn't kept",
                        "Let the relation be written, and the attribute beside it be insertable = false and updatable = false; or add"
                        + " @Transient", ReadOnlyJoin.class, Good.class),
                row("TwoSorts.good", "it has @ManyToOne and @OneToOne", "Leave one of them", TwoSorts.class, Good.class),
                row("OldOneToOne.good", "@PrimaryKeyJoinColumn isn't kept", "Use @MapsId, with the relation set",
                        OldOneToOne.class, Good.class),

                row("NoConverter", "it is no AttributeConverter", "Implement AttributeConverter<X, Y>", NoConverter.class, Good.class),
                row("ToNothing", "it converts to java.lang.Object, which is no basic type",
                        "Convert to a number, a String, a byte[] or a date", ToNothing.class, Good.class),
                row("Lower", "another converter applies by itself to java.lang.String too", "Leave out autoApply of one of them",
                        Upper.class, Lower.class, Good.class),
                row("Raising", "its constructor raised java.lang.IllegalStateException: no", "Let it make a converter",
                        Raising.class, Good.class),
                row("OtherConverter.number", "its converter is of java.lang.String, and it is of java.lang.Integer",
                        "Name a converter of its type", OtherConverter.class),
                row("TwoCallbacks", "one and two are both of @PrePersist", "Leave one of them", TwoCallbacks.class),
                row("WithParameter.one", "it is no callback", "Let it be void, without parameters, and not static", WithParameter.class),
                row("StaticCallback.one", "it is no callback", "Let it be void, without parameters, and not static", StaticCallback.class),
                row("OfGood.hear", "it takes " + HERE + "Good, and listens to " + HERE + "HeardWrongly too",
                        "Let it take Object, or a class above all that it listens to", HeardWrongly.class),
                row("Silent", "it has no constructor without parameters", "Add one; it may be protected", HeardByNone.class));
    }

    @TestFactory
    Stream<DynamicTest> eachWrongClassGetsItsWords() {
        return rows().stream().map(row -> DynamicTest.dynamicTest(row.place(), () -> {
            RefusedUnit refused = assertThrows(RefusedUnit.class, () -> Reader.read("test", row.classes()));
            assertEquals(List.of(new Fault(HERE + row.place(), row.what(), row.remedy())), refused.faults());
        }));
    }

    @Test
    void allFaultsAreToldAtOnce() {
        List<Class<?>> all = rows().stream().flatMap(row -> row.classes().stream()).distinct().toList();
        RefusedUnit refused = assertThrows(RefusedUnit.class, () -> Reader.read("shop", all));
        for (Row row : rows()) {
            boolean isTold = refused.faults().stream().anyMatch(it -> it.place().equals(HERE + row.place()) && it.what().equals(row.what()));
            assertTrue(isTold || row.what().contains("isn't among"), row.place());
        }
        assertTrue(refused.getMessage().startsWith("The persistence unit shop has " + refused.faults().size() + " faults:\n- "));
        assertTrue(refused.getMessage().contains("\n- " + HERE + "NoKey: it has no key. Annotate a field or a getter with @Id or @EmbeddedId."));
    }

    @Entity static class Wide { @Id int id; @Embedded Eleven a, b, c, d, e, f; }
    @Embeddable static class Eleven { int a, b, c, d, e, f, g, h, i, j, k; }

    @Test
    void noMoreMembersThanTheProgramHas() {
        RefusedUnit refused = assertThrows(RefusedUnit.class, () -> Reader.read("test", List.of(Wide.class)));
        assertEquals(List.of(new Fault(HERE + "Wide", "it has 66 attributes and relations, and may have 64",
                "Move some of them into an entity of their own, with @OneToOne")), refused.faults());
    }

    static class Collides {}

    @Test
    void namesOfOneNumberAreToldWithBothNames() {
        PlainEntity entity = new PlainEntity(Collides.class, "Collides", "Collides", null, "Collides", "Collides");
        String[] names = namesOfOneNumber();
        for (String name : names) {
            entity.has(new PlainAttribute(name, name, Attribute.Role.PLAIN, Codecs.plain(int.class), false, null, name));
        }
        Faults faults = new Faults();
        new NumberCheck(faults).check(List.of(entity));
        int number = Names.number(names[0]);
        assertEquals(List.of(new Fault(HERE + "Collides." + names[1], "the column " + names[1] + " has the number " + number
                + ", as the column " + names[0] + " of " + HERE + "Collides." + names[0],
                "Name one of them otherwise, by @Column, @JoinColumn or @AttributeOverride")), faults.found());
    }

    private static String[] namesOfOneNumber() {
        Map<Integer, String> seen = new HashMap<>();
        for (int i = 0;; i++) {
            String other = seen.putIfAbsent(Names.number("c" + i), "c" + i);
            if (other != null) {
                return new String[] {other, "c" + i};
            }
        }
    }
}
