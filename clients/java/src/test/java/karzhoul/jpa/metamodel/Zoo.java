package karzhoul.jpa.metamodel;

import jakarta.persistence.Access;
import jakarta.persistence.AccessType;
import jakarta.persistence.Basic;
import jakarta.persistence.Embeddable;
import jakarta.persistence.Embedded;
import jakarta.persistence.EmbeddedId;
import jakarta.persistence.Entity;
import jakarta.persistence.Id;
import jakarta.persistence.IdClass;
import jakarta.persistence.ManyToMany;
import jakarta.persistence.ManyToOne;
import jakarta.persistence.MappedSuperclass;
import jakarta.persistence.OneToMany;
import jakarta.persistence.OneToOne;
import jakarta.persistence.Transient;
import jakarta.persistence.Version;
import java.io.Serializable;
import java.util.ArrayList;
import java.util.Collection;
import java.util.HashSet;
import java.util.List;
import java.util.Set;

/** Classes of each sort for the metamodel. */
final class Zoo {
    static final List<Class<?>> CLASSES = List.of(Keyed.class, Animal.class, Cat.class, Keeper.class, Address.class,
            Town.class, Cage.class, CageKey.class, Meal.class);

    private Zoo() {}

    /** What has a key of some type. */
    @MappedSuperclass
    public abstract static class Keyed<K extends Serializable> {
        @Id
        protected K key;
        @Version
        protected int version;
    }

    /** An animal. */
    @Entity
    public static class Animal extends Keyed<Long> {
        @Basic(optional = false)
        protected String name;
        protected double weight;
        @ManyToOne(optional = false)
        protected Keeper keeper;
        @ManyToMany
        protected Set<Animal> friends = new HashSet<>();
    }

    /** An animal of its own. */
    @Entity(name = "Tiger")
    public static class Cat extends Animal {
        protected Integer stripes;
    }

    /** Where. */
    @Embeddable
    public static class Town {
        protected String name;
    }

    /** Where, closer. */
    @Embeddable
    public static class Address {
        protected String street;
        @Embedded
        protected Town town;
        @OneToOne
        protected Cage cage;
    }

    /** A keeper, by properties. */
    @Entity
    @Access(AccessType.PROPERTY)
    public static class Keeper {
        private String login;
        private Address address;
        private List<Animal> animals = new ArrayList<>();
        private Collection<Cage> cages = new ArrayList<>();

        @Id
        public String getLogin() {
            return login;
        }

        public void setLogin(String login) {
            this.login = login;
        }

        public Address getAddress() {
            return address;
        }

        public void setAddress(Address address) {
            this.address = address;
        }

        @OneToMany(mappedBy = "keeper")
        public List<Animal> getAnimals() {
            return animals;
        }

        public void setAnimals(List<Animal> animals) {
            this.animals = animals;
        }

        @OneToMany
        public Collection<Cage> getCages() {
            return cages;
        }

        public void setCages(Collection<Cage> cages) {
            this.cages = cages;
        }

        @Transient
        public int getCount() {
            return animals.size();
        }
    }

    /** The key of a cage. */
    @Embeddable
    public static class CageKey implements Serializable {
        protected int row;
        protected int place;

        @Override
        public boolean equals(Object other) {
            return other instanceof CageKey key && row == key.row && place == key.place;
        }

        @Override
        public int hashCode() {
            return row * 31 + place;
        }
    }

    /** A cage. */
    @Entity
    public static class Cage {
        @EmbeddedId
        protected CageKey at;
    }

    /** The key of a meal. */
    public static class MealKey implements Serializable {
        protected int day;
        protected String what;

        @Override
        public boolean equals(Object other) {
            return other instanceof MealKey key && day == key.day && what.equals(key.what);
        }

        @Override
        public int hashCode() {
            return day;
        }
    }

    /** A meal. */
    @Entity
    @IdClass(MealKey.class)
    public static class Meal {
        @Id
        protected int day;
        @Id
        protected String what;
    }
}
