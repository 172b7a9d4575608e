package karzhoul.jpa.shop;

import jakarta.persistence.Entity;
import jakarta.persistence.Id;

/** A final class, of which there can be no proxies. */
@Entity
public final class Sealed {
    @Id
    private String code;

    private String text;

    protected Sealed() {}

    public Sealed(String code, String text) {
        this.code = code;
        this.text = text;
    }

    public String getCode() {
        return code;
    }

    public String getText() {
        return text;
    }
}
