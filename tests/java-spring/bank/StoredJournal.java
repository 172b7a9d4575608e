package bank;

import java.util.List;
import javax.persistence.EntityManager;
import javax.persistence.PersistenceContext;
import org.springframework.stereotype.Repository;
import org.springframework.transaction.annotation.Propagation;
import org.springframework.transaction.annotation.Transactional;

/** Its faults come as those of Spring. */
@Repository
class StoredJournal implements Journal {
    @PersistenceContext
    private EntityManager manager;

    @Override
    @Transactional(propagation = Propagation.REQUIRES_NEW)
    public long note(String text, long number) {
        Account account = manager.find(Account.class, number);
        manager.persist(new Booking(text, account));
        return account.money.amount;
    }

    @Override
    @Transactional(propagation = Propagation.MANDATORY)
    public void noteWithin(String text) {
        manager.persist(new Booking(text, null));
    }

    @Override
    @Transactional
    public void open(Account account) {
        manager.persist(account);
        manager.flush();
    }

    @Override
    @Transactional
    public void merge(Account account) {
        manager.merge(account);
    }

    @Override
    public void openNowhere(Account account) {
        manager.persist(account);
    }

    @Override
    public List<String> texts() {
        return manager.createQuery("SELECT b.text FROM Booking b ORDER BY b.id", String.class).getResultList();
    }

    @Override
    public Account byOwner(String owner) {
        return manager.createQuery("SELECT a FROM Account a WHERE a.owner = :owner", Account.class)
                .setParameter("owner", owner).getSingleResult();
    }

    @Override
    public void askWrongly() {
        manager.createQuery("SELECT a FROM Acount a");
    }
}
