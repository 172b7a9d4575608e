package shop;

import jakarta.persistence.Persistence;

public class Main {
    public static void main(String[] args) {
        try (var factory = Persistence.createEntityManagerFactory("shop");
                var manager = factory.createEntityManager()) {
            manager.getTransaction().begin();
            var ada = new Person("Ada");
            ada.orders(10, 5);
            manager.persist(ada);
            manager.getTransaction().commit();

            var text = "SELECT o FROM Order o JOIN FETCH o.person WHERE o.amount > :least";
            for (var order : manager.createQuery(text, Order.class).setParameter("least", 4).getResultList()) {
                System.out.println(order.person.name + " ordered " + order.amount + ", number " + order.number);
            }
        }
    }
}
