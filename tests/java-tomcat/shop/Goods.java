package shop;

import jakarta.persistence.EntityManager;
import jakarta.persistence.EntityManagerFactory;
import jakarta.persistence.OptimisticLockException;
import jakarta.persistence.RollbackException;
import jakarta.servlet.annotation.WebServlet;
import jakarta.servlet.http.HttpServlet;
import jakarta.servlet.http.HttpServletRequest;
import jakarta.servlet.http.HttpServletResponse;
import java.io.IOException;
import java.util.concurrent.ThreadLocalRandom;
import java.util.concurrent.locks.LockSupport;

/** {@code POST ?name=..} adds a good, {@code GET} tells how many there are. */
@WebServlet("/goods")
public class Goods extends HttpServlet {
    private static final long serialVersionUID = 1;

    /** Who met others pauses for as many attempts at most, so that they don't meet again on a machine of any speed. */
    private static final int ATTEMPTS = 8;

    private EntityManager manager() {
        return ((EntityManagerFactory) getServletContext().getAttribute(Unit.NAME)).createEntityManager();
    }

    @Override
    protected void doPost(HttpServletRequest request, HttpServletResponse response) throws IOException {
        long begun = System.nanoTime();
        while (!isAdded(request.getParameter("name"))) {
            long took = System.nanoTime() - begun;
            LockSupport.parkNanos(ThreadLocalRandom.current().nextLong(Math.max(1, ATTEMPTS * took)));
            begun = System.nanoTime();
        }
        response.getWriter().print("added");
    }

    /** False where another request has changed the shelf meanwhile. */
    private boolean isAdded(String name) {
        try (EntityManager manager = manager()) {
            manager.getTransaction().begin();
            Shelf shelf = manager.find(Shelf.class, 1L);
            shelf.goods++;
            manager.persist(new Good(name, shelf));
            manager.getTransaction().commit();
            return true;
        } catch (RollbackException fault) {
            if (fault.getCause() instanceof OptimisticLockException) {
                return false;
            }
            throw fault;
        }
    }

    @Override
    protected void doGet(HttpServletRequest request, HttpServletResponse response) throws IOException {
        try (EntityManager manager = manager()) {
            long goods = manager.createQuery("SELECT COUNT(g) FROM Good g", Long.class).getSingleResult();
            long names = manager.createQuery("SELECT COUNT(DISTINCT g.name) FROM Good g", Long.class).getSingleResult();
            // (a proxy, which Byte Buddy has made among the application's classes)
            Good one = manager.createQuery("SELECT g FROM Good g", Good.class).setMaxResults(1).getResultStream().findFirst()
                    .orElse(null);
            long counted = one == null ? 0 : one.shelf.goods();
            response.getWriter().print(goods + " goods of " + names + " names, " + counted + " counted");
        }
    }
}
