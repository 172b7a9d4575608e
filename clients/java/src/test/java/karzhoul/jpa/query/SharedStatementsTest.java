package karzhoul.jpa.query;

import static org.junit.jupiter.api.Assertions.assertEquals;
import static org.junit.jupiter.api.Assertions.assertNotSame;
import static org.junit.jupiter.api.Assertions.assertSame;

import jakarta.persistence.EntityManager;
import jakarta.persistence.TypedQuery;
import jakarta.persistence.criteria.CriteriaBuilder;
import jakarta.persistence.criteria.CriteriaQuery;
import jakarta.persistence.criteria.Expression;
import jakarta.persistence.criteria.ParameterExpression;
import jakarta.persistence.criteria.Root;
import java.util.ArrayList;
import java.util.List;
import java.util.concurrent.Callable;
import java.util.concurrent.ExecutorService;
import java.util.concurrent.Executors;
import java.util.concurrent.Future;
import org.junit.jupiter.api.Test;

/** Threads share the statements of a factory, and each has the rows of its own parameters. */
class SharedStatementsTest extends OverShop {
    @Test
    void threadsShareStatements() throws Exception {
        ExecutorService threads = Executors.newFixedThreadPool(8);
        List<Future<List<String>>> all = new ArrayList<>();
        for (int thread = 0; thread < 8; thread++) {
            int number = thread;
            Callable<List<String>> work = () -> work(number);
            all.add(threads.submit(work));
        }
        for (Future<List<String>> one : all) {
            assertEquals(List.of(), one.get());
        }
        threads.shutdown();
    }

    @Test
    void queriesThatAreBuiltOfTheSamePartsShareOne() {
        CriteriaBuilder cb = manager.getCriteriaBuilder();
        ParameterExpression<Integer> one = cb.parameter(Integer.class);
        ParameterExpression<Integer> other = cb.parameter(Integer.class);
        TypedQuery<Long> first = manager.createQuery(older(cb, one)).setParameter(one, 40);
        TypedQuery<Long> second = manager.createQuery(older(cb, other)).setParameter(other, 20);
        assertSame(((StatementQuery<?>) first).text(), ((StatementQuery<?>) second).text());
        assertEquals(List.of(4L), first.getResultList());
        assertEquals(List.of(1L, 3L, 4L), second.getResultList());
        TypedQuery<Long> third = manager.createQuery(older(cb, cb.literal(40)));
        assertNotSame(((StatementQuery<?>) first).text(), ((StatementQuery<?>) third).text());
        assertEquals(List.of(4L), third.getResultList());
    }

    private static CriteriaQuery<Long> older(CriteriaBuilder cb, Expression<Integer> age) {
        CriteriaQuery<Long> query = cb.createQuery(Long.class);
        Root<Shop.Person> p = query.from(Shop.Person.class);
        return query.select(p.get("id")).where(cb.gt(p.<Integer>get("age"), age)).orderBy(cb.asc(p.get("id")));
    }

    private static List<String> work(int number) {
        List<String> wrong = new ArrayList<>();
        try (EntityManager own = factory.createEntityManager()) {
            for (int round = 0; round < 30; round++) {
                int age = 20 + (number + round) % 40;
                String text =
                        "SELECT COUNT(p) FROM Person p WHERE p.age = :age AND (UPPER(p.name) IN :names OR p.id IN :ids)";
                Object found = own.createQuery(text).setParameter("age", age).setParameter("names",
                        List.of("ADA", "BOB", "CY"))
                        .setParameter("ids", List.of(2L)).getSingleResult();
                long expected = age == 36 ? 2 : age == 50 || age == 20 ? 1 : 0;
                if (!found.equals(expected)) {
                    wrong.add(age + ": " + found);
                }
            }
        }
        return wrong;
    }
}
