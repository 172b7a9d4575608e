package karzhoul.jpa.shop;

import jakarta.persistence.Entity;
import jakarta.persistence.Id;
import jakarta.persistence.OneToMany;
import jakarta.persistence.Version;
import java.io.Serializable;
import java.util.ArrayList;
import java.util.List;
import java.util.Objects;

/** From where orders are sent: nothing cascades to it or from it. */
@Entity
public class Depot implements Serializable {
    private static final long serialVersionUID = 1;

    @Id
    private String code;

    @Version
    private Integer version;

    private String place;

    @OneToMany(mappedBy = "depot")
    private List<Order> orders = new ArrayList<>();

    protected Depot() {}

    public Depot(String code, String place) {
        this.code = code;
        this.place = place;
    }

    public String getCode() {
        return code;
    }

    public Integer getVersion() {
        return version;
    }

    public String getPlace() {
        return place;
    }

    public void setPlace(String place) {
        this.place = place;
    }

    public List<Order> getOrders() {
        return orders;
    }

    @Override
    public boolean equals(Object other) {
        return other instanceof Depot depot && Objects.equals(depot.getCode(), getCode());
    }

    @Override
    public int hashCode() {
        return Objects.hashCode(code);
    }

    @Override
    public String toString() {
        return "Depot " + code;
    }
}
