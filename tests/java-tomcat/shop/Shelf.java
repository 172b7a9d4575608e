package shop;

import jakarta.persistence.Entity;
import jakarta.persistence.Id;
import jakarta.persistence.Version;

/** A shelf that counts its goods, so that all who add one change it. */
@Entity
public class Shelf {
    @Id
    long number;

    @Version
    int version;

    long goods;

    protected Shelf() {}

    Shelf(long number) {
        this.number = number;
    }

    public long goods() {
        return goods;
    }
}
