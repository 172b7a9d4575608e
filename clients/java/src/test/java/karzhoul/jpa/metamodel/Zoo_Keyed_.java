package karzhoul.jpa.metamodel;

import jakarta.persistence.metamodel.SingularAttribute;
import jakarta.persistence.metamodel.StaticMetamodel;
import java.io.Serializable;

/** The static metamodel of what has a key. */
@StaticMetamodel(Zoo.Keyed.class)
public abstract class Zoo_Keyed_ {
    public static volatile SingularAttribute<Zoo.Keyed, Serializable> key;
    public static volatile SingularAttribute<Zoo.Keyed, Integer> version;
}
