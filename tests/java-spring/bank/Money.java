package bank;

import javax.persistence.Embeddable;

@Embeddable
public class Money {
    long amount;
    String currency = "CHF";
}
