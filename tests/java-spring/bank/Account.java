package bank;

import javax.persistence.AttributeOverride;
import javax.persistence.AttributeOverrides;
import javax.persistence.Column;
import javax.persistence.Embedded;
import javax.persistence.Entity;
import javax.persistence.Id;
import javax.persistence.NamedQueries;
import javax.persistence.NamedQuery;
import javax.persistence.Version;

/** An account of the bank, with annotations in those that held several before they could be repeated. */
@Entity
@NamedQueries({
    @NamedQuery(name = "rich", query = "SELECT a.number FROM Account a WHERE a.money.amount >= :least ORDER BY a.number"),
    @NamedQuery(name = "total", query = "SELECT SUM(a.money.amount) FROM Account a")})
public class Account {
    @Id
    long number;

    @Version
    int version;

    @Column(unique = true)
    String owner;

    @Embedded
    @AttributeOverrides({
        @AttributeOverride(name = "amount", column = @Column(name = "balance")),
        @AttributeOverride(name = "currency", column = @Column(name = "kind"))})
    Money money = new Money();

    protected Account() {}

    Account(long number, String owner, long amount) {
        this.number = number;
        this.owner = owner;
        this.money.amount = amount;
    }

    public String owner() {
        return owner;
    }
}
