package bank;

import java.util.ArrayList;
import java.util.List;
import java.util.Map;
import java.util.concurrent.Callable;
import java.util.concurrent.CyclicBarrier;
import java.util.concurrent.ExecutorService;
import java.util.concurrent.Executors;
import java.util.concurrent.Future;
import java.util.concurrent.TimeUnit;
import java.util.stream.Collectors;
import javax.persistence.EntityManagerFactory;
import karzhoul.jpa.Karzhoul;
import org.springframework.context.ConfigurableApplicationContext;
import org.springframework.context.support.ClassPathXmlApplicationContext;
import org.springframework.core.env.MapPropertySource;
import org.springframework.dao.OptimisticLockingFailureException;
import org.springframework.orm.jpa.JpaTransactionManager;
import org.springframework.transaction.support.TransactionTemplate;

/** {@code Main STORE}: what the bank does, a line each, in one context and then in another one over the same store. */
public final class Main {
    private final Bank bank;
    private final Journal journal;
    private final EntityManagerFactory factory;
    private final TransactionTemplate template;

    private Main(ConfigurableApplicationContext context) {
        bank = context.getBean(Bank.class);
        journal = context.getBean(Journal.class);
        factory = context.getBean(EntityManagerFactory.class);
        template = new TransactionTemplate(context.getBean(JpaTransactionManager.class));
    }

    public static void main(String[] words) throws Exception {
        try (ConfigurableApplicationContext context = context("scanned", words[0])) {
            Main main = new Main(context);
            main.services();
            main.propagations();
            main.translations();
            main.conflicts();
            main.adds();
            main.form(context);
            System.out.println("managers in use: " + main.factory.unwrap(Karzhoul.class).statistics().managers());
        }
        ended();
        try (ConfigurableApplicationContext context = context("listed", words[0])) {
            Main main = new Main(context);
            System.out.println("found again: " + main.balances() + ", " + main.journal.texts());
        }
        ended();
    }

    private static ConfigurableApplicationContext context(String profile, String store) {
        ClassPathXmlApplicationContext context = new ClassPathXmlApplicationContext();
        context.getEnvironment().setActiveProfiles(profile);
        context.getEnvironment().getPropertySources().addFirst(
                new MapPropertySource("words", Map.of("store", "karzhoul:" + store)));
        context.setConfigLocation("META-INF/bank.xml");
        context.refresh();
        return context;
    }

    /** Waits until the program has ended, which it does with the context. */
    private static void ended() throws Exception {
        for (ProcessHandle program : ProcessHandle.current().children().collect(Collectors.toList())) {
            program.onExit().get(60, TimeUnit.SECONDS);
        }
        System.out.println("programs after the context: " + ProcessHandle.current().children().count());
    }

    private void services() {
        bank.open(1, "Ada", 100);
        bank.open(2, "Bob", 50);
        bank.move(1, 2, 30);
        System.out.println("moved: " + balances() + " of " + bank.total());
        tell("overdrawn", () -> bank.move(1, 2, 500));
        System.out.println("rolled back: " + balances());
        tell("checked", () -> bank.addThenFail(1, 5));
        tell("checked, with rollbackFor", () -> bank.addUnlessFailed(2, 5));
        System.out.println("so: " + balances());
        System.out.println("rich: " + template.execute(status -> factory.createEntityManager()
                .createNamedQuery("rich").setParameter("least", 76L).getResultList()));
        template.execute(status -> {
            bank.add(1, 1000);
            status.setRollbackOnly();
            return null;
        });
        System.out.println("set to roll back: " + balances());
        bank.addWhileReading(1, 1);
        System.out.println("read-only is Spring's word: " + balances());
        bank.addWhileReading(1, -1);
    }

    private void propagations() {
        System.out.println("the journal saw " + bank.moveNoted(1, 2, 5) + ", then " + balances());
        tell("overdrawn, but noted", () -> bank.moveNoted(1, 2, 400));
        System.out.println("so: " + balances() + ", " + journal.texts());
        tell("mandatory", () -> journal.noteWithin("without one"));
        tell("careless", () -> bank.moveCarelessly(bank, 1, 2, 600));
        System.out.println("so: " + balances() + ", " + journal.texts());
        tell("a booking's account, after its transaction", () -> bank.booking("move 5").account.owner());
    }

    private void translations() {
        tell("no row", () -> journal.byOwner("Eve"));
        tell("no entity", journal::askWrongly);
        tell("no transaction", () -> journal.openNowhere(new Account(3, "Cy", 0)));
        tell("a key twice", () -> journal.open(new Account(1, "Cy", 0)));
        tell("an owner twice", () -> journal.open(new Account(3, "Ada", 0)));
        tell("an owner twice, at the commit", () -> bank.open(3, "Ada", 0));
        System.out.println("and still: " + balances() + ", Bob has " + journal.byOwner("Bob").number);
    }

    /** Each of two has read before the other one commits: one of them is stale. */
    private void conflicts() throws Exception {
        CyclicBarrier barrier = new CyclicBarrier(2);
        List<String> ends = together(2, () -> {
            bank.addTogether(1, 7, barrier);
            return "committed";
        });
        System.out.println("two at once: " + ends.stream().sorted().collect(Collectors.toList()) + ", " + balances());
        Account old = bank.account(1);
        bank.lock(1);
        tell("merge of what is stale", () -> journal.merge(old));
    }

    /** All adds come in where who is stale begins again. */
    private void adds() throws Exception {
        together(4, () -> {
            for (int done = 0; done < 25;) {
                try {
                    bank.add(2, 1);
                    done++;
                } catch (OptimisticLockingFailureException stale) {
                    Thread.onSpinWait();
                }
            }
            return "";
        });
        System.out.println("four added 25 each: " + balances());
    }

    /** An entity manager that goes on over several transactions. */
    private void form(ConfigurableApplicationContext context) {
        Form form = context.getBean(Form.class);
        form.read(1);
        form.add(3);
        System.out.println("before it is sent: " + balances());
        form.send();
        form.add(20);
        System.out.println("sent: " + balances());
        form.send();
        form.close();
        System.out.println("sent again: " + balances());
    }

    private static List<String> together(int threads, Callable<String> work) throws Exception {
        ExecutorService all = Executors.newFixedThreadPool(threads);
        try {
            List<Future<String>> begun = new ArrayList<>();
            for (int i = 0; i < threads; i++) {
                begun.add(all.submit(() -> {
                    try {
                        return work.call();
                    } catch (RuntimeException fault) {
                        return fault.getClass().getSimpleName();
                    }
                }));
            }
            List<String> ends = new ArrayList<>();
            for (Future<String> one : begun) {
                ends.add(one.get(120, TimeUnit.SECONDS));
            }
            return ends;
        } finally {
            all.shutdown();
        }
    }

    private String balances() {
        return bank.account(1).money.amount + " and " + bank.account(2).money.amount;
    }

    private interface Work {
        void run() throws Exception;
    }

    private static void tell(String what, Work work) {
        try {
            work.run();
        } catch (Exception fault) {
            Throwable cause = fault.getCause();
            System.out.println(what + ": " + fault.getClass().getSimpleName()
                    + (cause == null ? "" : " by " + cause.getClass().getSimpleName()));
        }
    }
}
