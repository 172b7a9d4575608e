package karzhoul.jpa.metamodel;

import static org.junit.jupiter.api.Assertions.assertEquals;
import static org.junit.jupiter.api.Assertions.assertFalse;
import static org.junit.jupiter.api.Assertions.assertNull;
import static org.junit.jupiter.api.Assertions.assertSame;
import static org.junit.jupiter.api.Assertions.assertThrows;
import static org.junit.jupiter.api.Assertions.assertTrue;

import jakarta.persistence.metamodel.Attribute;
import jakarta.persistence.metamodel.Attribute.PersistentAttributeType;
import jakarta.persistence.metamodel.Bindable.BindableType;
import jakarta.persistence.metamodel.EntityType;
import jakarta.persistence.metamodel.IdentifiableType;
import jakarta.persistence.metamodel.ListAttribute;
import jakarta.persistence.metamodel.ManagedType;
import jakarta.persistence.metamodel.Metamodel;
import jakarta.persistence.metamodel.PluralAttribute.CollectionType;
import jakarta.persistence.metamodel.SingularAttribute;
import jakarta.persistence.metamodel.Type.PersistenceType;
import java.io.Serializable;
import java.lang.reflect.Field;
import java.lang.reflect.Method;
import java.util.Collection;
import java.util.Set;
import java.util.TreeSet;
import java.util.stream.Collectors;
import karzhoul.jpa.metamodel.Zoo.Animal;
import karzhoul.jpa.metamodel.Zoo.Cage;
import karzhoul.jpa.metamodel.Zoo.CageKey;
import karzhoul.jpa.metamodel.Zoo.Cat;
import karzhoul.jpa.metamodel.Zoo.Keeper;
import karzhoul.jpa.metamodel.Zoo.Keyed;
import karzhoul.jpa.metamodel.Zoo.Meal;
import karzhoul.jpa.model.Reader;
import org.junit.jupiter.api.Test;

/** What the metamodel says of classes of each sort (chapter 5). */
class MetamodelTest {
    private final Metamodel metamodel = new UnitMetamodel(Reader.read("zoo", Zoo.CLASSES));

    private static Set<String> names(Collection<? extends Attribute<?, ?>> attributes) {
        return attributes.stream().map(Attribute::getName).collect(Collectors.toCollection(TreeSet::new));
    }

    private static Set<String> classes(Collection<? extends ManagedType<?>> types) {
        return types.stream().map(type -> type.getJavaType().getSimpleName())
                .collect(Collectors.toCollection(TreeSet::new));
    }

    @Test
    void typesAreThoseOfTheUnit() {
        assertEquals(Set.of("Animal", "Cage", "Cat", "Keeper", "Meal"), classes(metamodel.getEntities()));
        assertEquals(Set.of("Address", "CageKey", "Town"), classes(metamodel.getEmbeddables()));
        assertEquals(9, metamodel.getManagedTypes().size());
        assertEquals("Tiger", metamodel.entity(Cat.class).getName());
        assertEquals("Animal", metamodel.entity(Animal.class).getName());
        assertEquals(PersistenceType.ENTITY, metamodel.entity(Animal.class).getPersistenceType());
        assertEquals(PersistenceType.MAPPED_SUPERCLASS, metamodel.managedType(Keyed.class).getPersistenceType());
        assertEquals(PersistenceType.EMBEDDABLE, metamodel.embeddable(CageKey.class).getPersistenceType());
        assertEquals(BindableType.ENTITY_TYPE, metamodel.entity(Animal.class).getBindableType());
        assertEquals(Animal.class, metamodel.entity(Animal.class).getBindableJavaType());
        metamodel.getEntities().clear();
        assertEquals(5, metamodel.getEntities().size());
    }

    @Test
    void othersAreRefused() {
        assertThrows(IllegalArgumentException.class, () -> metamodel.entity(String.class));
        assertThrows(IllegalArgumentException.class, () -> metamodel.entity(CageKey.class));
        assertThrows(IllegalArgumentException.class, () -> metamodel.entity(Keyed.class));
        assertThrows(IllegalArgumentException.class, () -> metamodel.embeddable(Animal.class));
        assertThrows(IllegalArgumentException.class, () -> metamodel.managedType(Object.class));
        EntityType<Animal> animal = metamodel.entity(Animal.class);
        assertEquals("karzhoul.jpa.metamodel.Zoo$Animal has no attribute \"nam\"; it has "
                + "[key, version, name, weight, keeper, friends]",
                assertThrows(IllegalArgumentException.class, () -> animal.getAttribute("nam")).getMessage());
        assertThrows(IllegalArgumentException.class, () -> animal.getDeclaredAttribute("key"));
        assertThrows(IllegalArgumentException.class, () -> animal.getSingularAttribute("name", Integer.class));
        assertThrows(IllegalArgumentException.class, () -> animal.getSingularAttribute("friends"));
        assertThrows(IllegalArgumentException.class, () -> animal.getList("friends"));
        assertThrows(IllegalArgumentException.class, () -> animal.getSet("friends", Cage.class));
        assertThrows(IllegalArgumentException.class, () -> animal.getMap("friends"));
        assertThrows(IllegalArgumentException.class, () -> animal.getCollection("name"));
    }

    @Test
    void attributesAreDeclaredAndInherited() {
        EntityType<Animal> animal = metamodel.entity(Animal.class);
        EntityType<Cat> cat = metamodel.entity(Cat.class);
        assertEquals(Set.of("name", "weight", "keeper", "friends"), names(animal.getDeclaredAttributes()));
        assertEquals(Set.of("key", "version", "name", "weight", "keeper", "friends"), names(animal.getAttributes()));
        assertEquals(Set.of("stripes"), names(cat.getDeclaredAttributes()));
        assertSame(animal.getAttribute("name"), cat.getAttribute("name"));
        assertSame(animal, cat.getAttribute("name").getDeclaringType());
        assertEquals(Set.of("friends"), names(animal.getPluralAttributes()));
        assertEquals(Set.of(), names(cat.getDeclaredPluralAttributes()));
        assertEquals(Set.of("key", "version", "name", "weight", "keeper"), names(animal.getSingularAttributes()));
        assertEquals(Set.of("name", "weight", "keeper"), names(animal.getDeclaredSingularAttributes()));
        assertSame(animal, cat.getSupertype());
        assertSame(metamodel.managedType(Keyed.class), animal.getSupertype());
        assertNull(metamodel.entity(Keeper.class).getSupertype());
        assertEquals(Set.of("login", "address", "animals", "cages"),
                names(metamodel.entity(Keeper.class).getAttributes()));
    }

    @Test
    void attributesTellTheirTypes() {
        EntityType<Animal> animal = metamodel.entity(Animal.class);
        SingularAttribute<? super Animal, String> name = animal.getSingularAttribute("name", String.class);
        assertEquals(PersistentAttributeType.BASIC, name.getPersistentAttributeType());
        assertFalse(name.isOptional());
        assertFalse(name.isAssociation());
        assertFalse(name.isCollection());
        assertEquals(PersistenceType.BASIC, name.getType().getPersistenceType());
        assertTrue(name.getJavaMember() instanceof Field);
        assertEquals(BindableType.SINGULAR_ATTRIBUTE, name.getBindableType());
        assertEquals(double.class, animal.getSingularAttribute("weight", Double.class).getJavaType());
        assertFalse(animal.getSingularAttribute("weight").isOptional());
        SingularAttribute<? super Animal, Keeper> keeper = animal.getSingularAttribute("keeper", Keeper.class);
        assertEquals(PersistentAttributeType.MANY_TO_ONE, keeper.getPersistentAttributeType());
        assertTrue(keeper.isAssociation());
        assertFalse(keeper.isOptional());
        assertSame(metamodel.entity(Keeper.class), keeper.getType());
        assertTrue(animal.getSet("friends", Animal.class).isCollection());
        assertEquals(CollectionType.SET, animal.getSet("friends").getCollectionType());
        EntityType<Keeper> keepers = metamodel.entity(Keeper.class);
        ListAttribute<? super Keeper, Animal> animals = keepers.getList("animals", Animal.class);
        assertSame(animal, animals.getElementType());
        assertEquals(Animal.class, animals.getBindableJavaType());
        assertEquals(java.util.List.class, animals.getJavaType());
        assertEquals(PersistentAttributeType.ONE_TO_MANY, animals.getPersistentAttributeType());
        assertEquals(BindableType.PLURAL_ATTRIBUTE, animals.getBindableType());
        assertTrue(animals.getJavaMember() instanceof Method);
        assertEquals(CollectionType.COLLECTION, keepers.getCollection("cages", Cage.class).getCollectionType());
        SingularAttribute<? super Keeper, ?> address = keepers.getSingularAttribute("address");
        assertEquals(PersistentAttributeType.EMBEDDED, address.getPersistentAttributeType());
        assertSame(metamodel.embeddable(Zoo.Address.class), address.getType());
        assertEquals(PersistentAttributeType.ONE_TO_ONE, metamodel.embeddable(Zoo.Address.class)
                .getAttribute("cage").getPersistentAttributeType());
    }

    @Test
    void keysAndVersions() {
        EntityType<Cat> cat = metamodel.entity(Cat.class);
        assertEquals("key", cat.getId(Long.class).getName());
        assertEquals(Long.class, cat.getId(Long.class).getJavaType());
        assertTrue(cat.getId(Long.class).isId());
        assertFalse(cat.getId(Long.class).isOptional());
        assertTrue(cat.hasSingleIdAttribute());
        assertEquals(Long.class, cat.getIdType().getJavaType());
        assertTrue(cat.hasVersionAttribute());
        assertTrue(cat.getVersion(int.class).isVersion());
        assertThrows(IllegalArgumentException.class, () -> cat.getVersion(String.class));
        assertThrows(IllegalArgumentException.class, () -> cat.getDeclaredId(Long.class));
        assertThrows(IllegalArgumentException.class, () -> cat.getId(String.class));
        assertThrows(IllegalArgumentException.class, cat::getIdClassAttributes);
        IdentifiableType<Keyed> keyed = (IdentifiableType<Keyed>) metamodel.managedType(Keyed.class);
        assertEquals(Serializable.class, keyed.getDeclaredId(Serializable.class).getJavaType());
        assertEquals("version", keyed.getDeclaredVersion(int.class).getName());
        EntityType<Cage> cage = metamodel.entity(Cage.class);
        assertTrue(cage.hasSingleIdAttribute());
        assertSame(metamodel.embeddable(CageKey.class), cage.getIdType());
        assertFalse(cage.hasVersionAttribute());
        EntityType<Meal> meal = metamodel.entity(Meal.class);
        assertFalse(meal.hasSingleIdAttribute());
        assertEquals(Set.of("day", "what"), names(meal.getIdClassAttributes()));
        assertEquals(Zoo.MealKey.class, meal.getIdType().getJavaType());
        assertThrows(IllegalArgumentException.class, () -> meal.getId(int.class));
    }

    @Test
    void staticMetamodelsAreFilled() {
        assertSame(metamodel.entity(Animal.class).getAttribute("name"), Zoo_Animal_.name);
        assertSame(metamodel.entity(Animal.class).getSet("friends"), Zoo_Animal_.friends);
        assertSame(metamodel.managedType(Keyed.class).getAttribute("version"), Zoo_Keyed_.version);
        assertEquals("key", Zoo_Animal_.key.getName());
        assertEquals(double.class, Zoo_Animal_.weight.getJavaType());
        assertNull(Zoo_Animal_.none);
    }
}
