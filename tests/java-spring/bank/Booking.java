package bank;

import javax.persistence.Entity;
import javax.persistence.FetchType;
import javax.persistence.GeneratedValue;
import javax.persistence.Id;
import javax.persistence.ManyToOne;

@Entity
public class Booking {
    @Id
    @GeneratedValue
    Long id;

    String text;

    @ManyToOne(fetch = FetchType.LAZY)
    Account account;

    protected Booking() {}

    Booking(String text, Account account) {
        this.text = text;
        this.account = account;
    }
}
