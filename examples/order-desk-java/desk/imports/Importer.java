package desk.imports;

import static desk.common.Transactions.within;

import desk.catalog.Category;
import desk.catalog.Product;
import desk.common.DeskException;
import desk.customers.Company;
import desk.customers.Customer;
import jakarta.persistence.EntityManager;
import java.util.HashSet;
import java.util.List;
import java.util.function.Consumer;
import java.util.function.IntConsumer;

/** Stores rows, many to a transaction. A row whose key is stored already gives that entity its values. */
public final class Importer {
    private final EntityManager manager;
    private final int size;
    private final IntConsumer progress;

    /** An importer that stores so many rows a transaction, and tells after each how many there are. */
    public Importer(EntityManager manager, int size, IntConsumer progress) {
        this.manager = manager;
        this.size = size;
        this.progress = progress;
    }

    public void importProducts(List<ProductRow> rows) {
        importRows(rows, this::store);
    }

    public void importCustomers(List<CustomerRow> rows) {
        checkClasses(rows);
        importRows(rows, this::store);
    }

    /** The context is cleared after each transaction, so that it never holds more than one's entities. */
    private <R> void importRows(List<R> rows, Consumer<R> store) {
        for (var start = 0; start < rows.size(); start += size) {
            var batch = rows.subList(start, Math.min(start + size, rows.size()));
            within(manager, () -> {
                batch.forEach(store);
                return null;
            });
            manager.clear();
            progress.accept(start + batch.size());
        }
    }

    private void store(ProductRow row) {
        var product = manager.find(Product.class, row.sku());
        var isNew = product == null;
        if (isNew) {
            product = new Product(row.sku());
        }
        product.rename(row.name());
        product.offer(row.price(), row.stock(), row.categories().stream().map(this::category).toList());
        if (isNew) {
            manager.persist(product);
        }
    }

    private Category category(String code) {
        var category = manager.find(Category.class, code);
        if (category == null) {
            category = new Category(code);
            manager.persist(category);
        }
        return category;
    }

    private void store(CustomerRow row) {
        var customer = manager.find(Customer.class, row.number());
        var isNew = customer == null;
        if (isNew) {
            customer = row.isCompany() ? new Company(row.number()) : new Customer(row.number());
        }
        customer.rename(row.name());
        customer.move(row.city());
        if (customer instanceof Company company) {
            company.register(row.vat());
        }
        if (isNew) {
            manager.persist(customer);
        }
    }

    private void checkClasses(List<CustomerRow> rows) {
        var customers = new HashSet<>(numbers("SELECT c.number FROM Customer c"));
        var companies = new HashSet<>(numbers("SELECT c.number FROM Company c"));
        for (var row : rows) {
            if (customers.contains(row.number()) && companies.contains(row.number()) != row.isCompany()) {
                throw new DeskException("customer " + row.number() + " stays what it is, a company or none");
            }
        }
    }

    private List<Long> numbers(String text) {
        return manager.createQuery(text, Long.class).getResultList();
    }
}
