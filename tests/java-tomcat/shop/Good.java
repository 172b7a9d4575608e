package shop;

import jakarta.persistence.Entity;
import jakarta.persistence.GeneratedValue;
import jakarta.persistence.Id;
import jakarta.persistence.ManyToOne;
import jakarta.persistence.FetchType;

@Entity
public class Good {
    @Id
    @GeneratedValue
    Long id;

    String name;

    @ManyToOne(fetch = FetchType.LAZY)
    Shelf shelf;

    protected Good() {}

    Good(String name, Shelf shelf) {
        this.name = name;
        this.shelf = shelf;
    }
}
