package karzhoul.jpa.context;

import jakarta.persistence.EntityTransaction;
import jakarta.persistence.RollbackException;
import karzhoul.jpa.CommitUnknownException;
import karzhoul.jpa.engine.Refusals;

/** A resource-local transaction of an entity manager (chapter 7.5.3). */
final class Transaction implements EntityTransaction {
    private final Context context;

    Transaction(Context context) {
        this.context = context;
    }

    @Override
    public void begin() {
        if (context.isActive()) {
            throw new IllegalStateException("IllegalState(active): the transaction is active already");
        }
        context.begin();
    }

    /**
     * Commits what changed.
     *
     * @throws RollbackException where it can't be committed: it is rolled back then, and all is detached
     * @throws CommitUnknownException where the program ended before it answered, so that all of it stands, or nothing
     */
    @Override
    public void commit() {
        needActive();
        if (context.isMarked()) {
            RollbackException marked = Refusals.marked(context.markedBy());
            rollBackAfter(marked);
            throw marked;
        }
        try {
            context.within(() -> {
                new Flush(context).commit();
                return null;
            });
        } catch (RollbackException e) {
            Culprits culprits = new Culprits(context);
            context.rolledBack(true);
            throw culprits.named(e);
        } catch (CommitUnknownException e) {
            context.forgetMade();
            rollBackAfter(e);
            throw e;
        } catch (RuntimeException e) {
            Culprits culprits = new Culprits(context);
            rollBackAfter(e);
            throw Refusals.rolledBack(culprits.named(e));
        } catch (Error e) {
            context.forgetMade();
            rollBackAfter(e);
            throw e;
        }
    }

    private void rollBackAfter(Throwable cause) {
        try {
            context.rolledBack(false);
        } catch (RuntimeException e) {
            cause.addSuppressed(e);
        }
    }

    @Override
    public void rollback() {
        needActive();
        context.rolledBack(false);
    }

    @Override
    public void setRollbackOnly() {
        needActive();
        context.mark();
    }

    @Override
    public boolean getRollbackOnly() {
        needActive();
        return context.isMarked();
    }

    @Override
    public boolean isActive() {
        return context.isActive();
    }

    private void needActive() {
        if (!context.isActive()) {
            throw new IllegalStateException("IllegalState(inactive): no transaction is active");
        }
    }
}
