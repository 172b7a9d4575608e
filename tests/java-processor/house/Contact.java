package house;

import jakarta.persistence.Embeddable;
import jakarta.persistence.ManyToMany;
import java.util.ArrayList;
import java.util.List;

/** How someone is met: a relation within an embeddable. */
@Embeddable
public class Contact {
    String phone;
    @ManyToMany
    List<House> houses = new ArrayList<>();
}
