package karzhoul.jpa.context;

import jakarta.persistence.AttributeOverride;
import jakarta.persistence.CollectionTable;
import jakarta.persistence.Column;
import jakarta.persistence.ElementCollection;
import jakarta.persistence.Embeddable;
import jakarta.persistence.Entity;
import jakarta.persistence.EnumType;
import jakarta.persistence.Enumerated;
import jakarta.persistence.FetchType;
import jakarta.persistence.GeneratedValue;
import jakarta.persistence.Id;
import jakarta.persistence.MapKeyColumn;
import jakarta.persistence.MapKeyEnumerated;
import jakarta.persistence.OrderBy;
import jakarta.persistence.OrderColumn;
import jakarta.persistence.Version;
import java.math.BigDecimal;
import java.time.LocalDate;
import java.util.ArrayList;
import java.util.Collection;
import java.util.Date;
import java.util.HashMap;
import java.util.HashSet;
import java.util.List;
import java.util.Map;
import java.util.Objects;
import java.util.Set;

/** An entity with collections of values of each sort. */
@Entity
class Page implements java.io.Serializable {
    enum Mark { RED, GREEN, BLUE }

    @Embeddable
    static class Spot implements java.io.Serializable {
        int left;
        String word;
        LocalDate day;

        Spot() {}

        Spot(int left, String word) {
            this.left = left;
            this.word = word;
        }

        @Override
        public boolean equals(Object other) {
            return other instanceof Spot spot && left == spot.left && Objects.equals(word, spot.word)
                && Objects.equals(day, spot.day);
        }

        @Override
        public int hashCode() {
            return Objects.hash(left, word, day);
        }

        @Override
        public String toString() {
            return left + " " + word;
        }
    }

    @Id
    @GeneratedValue
    Long id;
    @Version
    int version;
    String name;

    @ElementCollection
    List<String> words = new ArrayList<>();
    @ElementCollection
    @CollectionTable(name = "page_marks")
    @Column(name = "mark", nullable = false)
    @Enumerated(EnumType.STRING)
    Set<Mark> marks = new HashSet<>();
    @ElementCollection(fetch = FetchType.EAGER)
    @Column(precision = 10, scale = 3)
    Collection<BigDecimal> prices = new ArrayList<>();
    @ElementCollection
    @OrderColumn
    List<String> steps = new ArrayList<>();
    @ElementCollection
    @AttributeOverride(name = "word", column = @Column(name = "text"))
    List<Spot> spots = new ArrayList<>();
    @ElementCollection
    @MapKeyColumn(name = "language")
    Map<String, String> titles = new HashMap<>();
    @ElementCollection
    @MapKeyEnumerated(EnumType.STRING)
    Map<Mark, Spot> places = new HashMap<>();
    @ElementCollection
    @OrderBy("left DESC")
    List<Spot> sorted = new ArrayList<>();
    @ElementCollection
    Set<Date> dates = new HashSet<>();

    Page() {}

    Page(String name) {
        this.name = name;
    }
}
