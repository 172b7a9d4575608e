package karzhoul.jpa.spi;

import static org.junit.jupiter.api.Assertions.assertEquals;
import static org.junit.jupiter.api.Assertions.assertFalse;
import static org.junit.jupiter.api.Assertions.assertNull;
import static org.junit.jupiter.api.Assertions.assertThrows;
import static org.junit.jupiter.api.Assertions.assertTrue;

import jakarta.persistence.Entity;
import jakarta.persistence.EntityManagerFactory;
import jakarta.persistence.Id;
import jakarta.persistence.PersistenceException;
import jakarta.persistence.SharedCacheMode;
import jakarta.persistence.ValidationMode;
import jakarta.persistence.spi.ClassTransformer;
import jakarta.persistence.spi.PersistenceUnitInfo;
import jakarta.persistence.spi.PersistenceUnitTransactionType;
import java.net.URL;
import java.util.List;
import java.util.Map;
import java.util.Properties;
import javax.sql.DataSource;
import karzhoul.jpa.KarzhoulProvider;
import org.junit.jupiter.api.Test;

/** Units that a container has read, as Spring's factory beans give them (chapter 9.6). */
class ContainerTest {
    @Entity static class One { @Id int id; }

    private static PersistenceUnitInfo info(String provider, PersistenceUnitTransactionType transactions, String url) {
        Properties properties = new Properties();
        if (url != null) {
            properties.setProperty("jakarta.persistence.jdbc.url", url);
        }
        return new PersistenceUnitInfo() {
            @Override public String getPersistenceUnitName() { return "contained"; }
            @Override public String getPersistenceProviderClassName() { return provider; }
            @Override public PersistenceUnitTransactionType getTransactionType() { return transactions; }
            @Override public DataSource getJtaDataSource() { return null; }
            @Override public DataSource getNonJtaDataSource() { return null; }
            @Override public List<String> getMappingFileNames() { return List.of(); }
            @Override public List<URL> getJarFileUrls() { return List.of(); }
            @Override public URL getPersistenceUnitRootUrl() { return null; }
            @Override public List<String> getManagedClassNames() { return List.of(One.class.getName()); }
            @Override public boolean excludeUnlistedClasses() { return true; }
            @Override public SharedCacheMode getSharedCacheMode() { return SharedCacheMode.UNSPECIFIED; }
            @Override public ValidationMode getValidationMode() { return ValidationMode.AUTO; }
            @Override public Properties getProperties() { return properties; }
            @Override public String getPersistenceXMLSchemaVersion() { return "3.0"; }
            @Override public ClassLoader getClassLoader() { return ContainerTest.class.getClassLoader(); }
            @Override public void addTransformer(ClassTransformer transformer) { }
            @Override public ClassLoader getNewTempClassLoader() { return getClassLoader(); }
        };
    }

    @Test
    void aFactoryOfAContainer() {
        KarzhoulProvider provider = new KarzhoulProvider();
        PersistenceUnitInfo info = info(Units.PROVIDER, PersistenceUnitTransactionType.RESOURCE_LOCAL, "karzhoul:memory");
        try (EntityManagerFactory factory = provider.createContainerEntityManagerFactory(info, Map.of())) {
            assertTrue(factory.isOpen());
        }
        provider.generateSchema(info, Map.of());
        assertFalse(provider.generateSchema("contained", Map.of()));
    }

    @Test
    void anotherProvidersUnit() {
        PersistenceUnitInfo info = info("another.Provider", PersistenceUnitTransactionType.RESOURCE_LOCAL, "karzhoul:memory");
        assertNull(new KarzhoulProvider().createContainerEntityManagerFactory(info, null));
        PersistenceUnitInfo none = info(null, PersistenceUnitTransactionType.RESOURCE_LOCAL, "jdbc:h2:mem:x");
        assertNull(new KarzhoulProvider().createContainerEntityManagerFactory(none, null));
    }

    @Test
    void jtaIsRefused() {
        PersistenceUnitInfo info = info(Units.PROVIDER, PersistenceUnitTransactionType.JTA, null);
        String words = assertThrows(PersistenceException.class,
                () -> new KarzhoulProvider().createContainerEntityManagerFactory(info, null)).getMessage();
        assertEquals("The persistence unit contained has 2 faults:"
                + "\n- the persistence unit contained: it has no jakarta.persistence.jdbc.url. Write karzhoul:FILE, as karzhoul:shop.db, "
                + "karzhoul:memory, or the address of a server."
                + "\n- the persistence unit contained: its transactions are JTA's, which isn't there. "
                + "Write transaction-type=\"RESOURCE_LOCAL\".", words);
    }
}
