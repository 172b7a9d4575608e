package bank;

import javax.persistence.EntityManager;
import javax.persistence.PersistenceContext;
import javax.persistence.PersistenceContextType;
import org.springframework.transaction.annotation.Transactional;

/** Its account stays managed until it is closed (chapter 7.6.3). */
class OpenForm implements Form {
    @PersistenceContext(type = PersistenceContextType.EXTENDED)
    private EntityManager manager;

    private Account account;

    @Override
    public void read(long number) {
        account = manager.find(Account.class, number);
    }

    @Override
    public void add(long amount) {
        account.money.amount += amount;
    }

    @Override
    @Transactional
    public void send() {
        manager.joinTransaction();
    }

    @Override
    public void close() {
        // (the container's own, which only Spring closes)
        manager.clear();
    }
}
