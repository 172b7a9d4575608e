package shop;

import jakarta.persistence.EntityManagerFactory;
import jakarta.persistence.Persistence;
import jakarta.servlet.ServletContextEvent;
import jakarta.servlet.ServletContextListener;
import jakarta.servlet.annotation.WebListener;
import java.util.Map;

/** The unit, from the beginning of the application to its end. */
@WebListener
public class Unit implements ServletContextListener {
    static final String NAME = "shop.factory";

    @Override
    public void contextInitialized(ServletContextEvent event) {
        var context = event.getServletContext();
        String url = "karzhoul:" + System.getProperty("shop.store");
        EntityManagerFactory factory = Persistence.createEntityManagerFactory("shop", Map.of("jakarta.persistence.jdbc.url", url));
        context.setAttribute(NAME, factory);
        try (var manager = factory.createEntityManager()) {
            manager.getTransaction().begin();
            if (manager.find(Shelf.class, 1L) == null) {
                manager.persist(new Shelf(1));
            }
            manager.getTransaction().commit();
        }
    }

    @Override
    public void contextDestroyed(ServletContextEvent event) {
        ((EntityManagerFactory) event.getServletContext().getAttribute(NAME)).close();
    }
}
