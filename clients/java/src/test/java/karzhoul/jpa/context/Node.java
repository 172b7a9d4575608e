package karzhoul.jpa.context;

import jakarta.persistence.CascadeType;
import jakarta.persistence.Entity;
import jakarta.persistence.Id;
import jakarta.persistence.ManyToMany;
import jakarta.persistence.ManyToOne;
import jakarta.persistence.MapKey;
import jakarta.persistence.OneToMany;
import jakarta.persistence.Version;
import java.util.ArrayList;
import java.util.HashMap;
import java.util.HashSet;
import java.util.List;
import java.util.Map;
import java.util.Set;

/** Leads to others of its kind in each way, with and without cascades. */
@Entity
class Node {
    @Id
    long number;

    @Version
    int version;

    String name;

    @ManyToOne(cascade = CascadeType.MERGE)
    Node next;

    @ManyToOne
    Node other;

    @OneToMany(mappedBy = "next")
    List<Node> before = new ArrayList<>();

    @ManyToMany
    List<Node> friends = new ArrayList<>();

    @ManyToMany
    Set<Node> known = new HashSet<>();

    @ManyToMany
    @MapKey(name = "name")
    Map<String, Node> named = new HashMap<>();

    protected Node() {}

    Node(long number, String name) {
        this.number = number;
        this.name = name;
    }
}
