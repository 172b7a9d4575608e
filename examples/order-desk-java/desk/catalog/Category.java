package desk.catalog;

import jakarta.persistence.Entity;
import jakarta.persistence.Id;
import jakarta.persistence.ManyToMany;
import java.util.HashSet;
import java.util.Locale;
import java.util.Set;

/** What products are sorted into. */
@Entity
public class Category {
    @Id private String code;
    private String title;
    @ManyToMany(mappedBy = "categories") private Set<Product> products = new HashSet<>();

    protected Category() {}

    public Category(String code) {
        this.code = code;
        this.title = code.substring(0, 1).toUpperCase(Locale.ROOT) + code.substring(1);
    }

    public String code() {
        return code;
    }

    public String title() {
        return title;
    }

    public Set<Product> products() {
        return products;
    }

    @Override
    public boolean equals(Object other) {
        return other instanceof Category category && code.equals(category.code());
    }

    @Override
    public int hashCode() {
        return code.hashCode();
    }
}
