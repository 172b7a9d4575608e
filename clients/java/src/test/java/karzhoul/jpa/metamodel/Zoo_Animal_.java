package karzhoul.jpa.metamodel;

import jakarta.persistence.metamodel.SetAttribute;
import jakarta.persistence.metamodel.SingularAttribute;
import jakarta.persistence.metamodel.StaticMetamodel;

/** The static metamodel of an animal, as chapter 6.2.1.1 writes it. */
@StaticMetamodel(Zoo.Animal.class)
public abstract class Zoo_Animal_ extends Zoo_Keyed_ {
    static final String NAME = "name";
    static volatile SingularAttribute<Zoo.Animal, String> name;
    public static volatile SingularAttribute<Zoo.Animal, Double> weight;
    public static volatile SetAttribute<Zoo.Animal, Zoo.Animal> friends;
    public static volatile SingularAttribute<Zoo.Animal, String> none;
}
