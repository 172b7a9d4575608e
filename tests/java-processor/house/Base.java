package house;

import jakarta.persistence.Id;
import jakarta.persistence.MappedSuperclass;
import jakarta.persistence.Version;
import java.io.Serializable;
import java.util.Date;

/** What has a key of some type. */
@MappedSuperclass
public abstract class Base<K extends Serializable & Comparable<K>> {
    @Id
    protected K key;
    @Version
    protected int version;
    protected Date changed;
    static int made;
    transient int seen;
}
