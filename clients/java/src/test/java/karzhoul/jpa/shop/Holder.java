package karzhoul.jpa.shop;

import jakarta.persistence.Entity;
import jakarta.persistence.FetchType;
import jakarta.persistence.Id;
import jakarta.persistence.ManyToOne;
import jakarta.persistence.OneToOne;
import java.util.Arrays;
import java.util.Date;

/** Holds values that change in place, and lazy links. */
@Entity
public class Holder {
    @Id
    private long number;

    private byte[] bytes;

    private Date day;

    private String text;

    private long amount;

    @ManyToOne(fetch = FetchType.LAZY)
    private Sealed sealed;

    @OneToOne(fetch = FetchType.LAZY)
    private Depot depot;

    protected Holder() {}

    public Holder(long number) {
        this.number = number;
    }

    public long getNumber() {
        return number;
    }

    public byte[] getBytes() {
        return bytes;
    }

    public void setBytes(byte[] bytes) {
        this.bytes = bytes;
    }

    public Date getDay() {
        return day;
    }

    public void setDay(Date day) {
        this.day = day;
    }

    public String getText() {
        return text;
    }

    public void setText(String text) {
        this.text = text;
    }

    public long getAmount() {
        return amount;
    }

    public void setAmount(long amount) {
        this.amount = amount;
    }

    public Sealed getSealed() {
        return sealed;
    }

    public void setSealed(Sealed sealed) {
        this.sealed = sealed;
    }

    public Depot getDepot() {
        return depot;
    }

    public void setDepot(Depot depot) {
        this.depot = depot;
    }

    @Override
    public String toString() {
        return number + " " + Arrays.toString(bytes) + " " + day;
    }
}
