package karzhoul.jpa.query;

import static org.junit.jupiter.api.Assertions.assertEquals;
import static org.junit.jupiter.api.Assertions.assertFalse;
import static org.junit.jupiter.api.Assertions.assertNotSame;
import static org.junit.jupiter.api.Assertions.assertNull;
import static org.junit.jupiter.api.Assertions.assertSame;
import static org.junit.jupiter.api.Assertions.assertThrows;
import static org.junit.jupiter.api.Assertions.assertTrue;

import jakarta.persistence.AttributeNode;
import jakarta.persistence.EntityGraph;
import jakarta.persistence.LockModeType;
import jakarta.persistence.PersistenceException;
import jakarta.persistence.PersistenceUtil;
import jakarta.persistence.NamedAttributeNode;
import jakarta.persistence.NamedEntityGraph;
import jakarta.persistence.Entity;
import jakarta.persistence.Id;
import jakarta.persistence.Subgraph;
import java.util.List;
import java.util.Map;
import java.util.Set;
import java.util.TreeSet;
import karzhoul.jpa.graph.Graphs;
import karzhoul.jpa.model.Reader;
import org.junit.jupiter.api.Test;
import org.junit.jupiter.params.ParameterizedTest;
import org.junit.jupiter.params.provider.ValueSource;

/** Entity graphs (chapter 3.7): what they name is read at once, and is there after all was detached. */
class EntityGraphTest extends OverShop {
    private static final String FETCH = "jakarta.persistence.fetchgraph";
    private static final String LOAD = "jakarta.persistence.loadgraph";

    private EntityGraph<Shop.Person> ofPersons(String... names) {
        EntityGraph<Shop.Person> graph = manager.createEntityGraph(Shop.Person.class);
        graph.addAttributeNodes(names);
        return graph;
    }

    private Shop.Person found(long id, EntityGraph<?> graph) {
        Shop.Person person = manager.find(Shop.Person.class, id, Map.of(FETCH, graph));
        manager.clear();
        return person;
    }

    private static void isUnread(Runnable look) {
        assertThrows(PersistenceException.class, look::run);
    }

    @ParameterizedTest
    @ValueSource(strings = {FETCH, LOAD})
    void whatAFindNamesIsThereOnceDetached(String property) {
        Shop.Person person = manager.find(Shop.Person.class, 3L, Map.of(property, ofPersons("name", "tags", "boss")));
        manager.clear();
        assertEquals("b", person.tags.get(0).code);
        assertEquals("Ada", person.boss.name);
        isUnread(() -> person.orders.size());
    }

    @Test
    void withoutAGraphNothingIs() {
        Shop.Person person = manager.find(Shop.Person.class, 3L);
        manager.clear();
        isUnread(() -> person.tags.size());
    }

    @Test
    void ofAnInstanceThatIsManagedItIsReadToo() {
        Shop.Person before = manager.find(Shop.Person.class, 1L);
        Shop.Person person = found(1, ofPersons("orders"));
        assertSame(before, person);
        assertEquals(2, person.orders.size());
    }

    @Test
    void subgraphsGoOn() {
        EntityGraph<Shop.Person> graph = ofPersons();
        Subgraph<Shop.Order> orders = graph.addSubgraph("orders");
        orders.addAttributeNodes("items");
        Shop.Person person = found(1, graph);
        assertEquals(3, person.orders.stream().mapToInt(order -> order.items.size()).sum());
    }

    @Test
    void aSubgraphOfASubclassIsOfItsInstancesAlone() {
        EntityGraph<Shop.Team> graph = manager.createEntityGraph(Shop.Team.class);
        graph.addSubgraph("members", Shop.Vip.class).addAttributeNodes("boss", "discount");
        List<Shop.Team> teams = manager.createQuery("SELECT t FROM Team t ORDER BY t.id", Shop.Team.class)
                .setHint(FETCH, graph).getResultList();
        manager.clear();
        assertEquals("Bob", teams.get(1).members.get(0).boss.name);
        isUnread(() -> teams.get(0).members.get(1).boss.orders.size());
        assertEquals(2, teams.get(0).members.size());
    }

    @Test
    void subclassesOfTheRoot() {
        EntityGraph<Shop.Person> graph = ofPersons("team");
        graph.addSubclassSubgraph(Shop.Vip.class).addAttributeNodes("boss");
        assertEquals("Bob", found(4, graph).boss.name);
        assertEquals("Red", found(3, graph).team.name);
    }

    @Test
    void refreshAndLockTakeOneToo() {
        manager.getTransaction().begin();
        Shop.Person person = manager.find(Shop.Person.class, 1L);
        manager.refresh(person, Map.of(LOAD, ofPersons("orders")));
        Shop.Person other = manager.find(Shop.Person.class, 3L, LockModeType.OPTIMISTIC, Map.of(LOAD, ofPersons("tags")));
        manager.clear();
        assertEquals(2, person.orders.size());
        assertEquals(1, other.tags.size());
    }

    @Test
    void namedByAnAnnotation() {
        Shop.Person person = found(1, manager.getEntityGraph("Person.withOrders"));
        assertEquals("Red", person.team.name);
        assertEquals(3, person.orders.stream().mapToInt(order -> order.items.size()).sum());
        isUnread(() -> person.tags.size());
    }

    @Test
    void aSubgraphMayLeadToItself() {
        Shop.Person cy = found(4, manager.getEntityGraph("Person.bosses"));
        assertEquals("Ada", cy.boss.boss.name);
        assertNull(cy.boss.boss.boss);
    }

    @Test
    void allAttributes() {
        Shop.Person person = found(1, manager.getEntityGraph("Person"));
        assertEquals("2 2 Red", person.orders.size() + " " + person.tags.size() + " " + person.team.name);
    }

    @Test
    void aHintOfANamedQueryMayNameOne() {
        List<Shop.Person> persons = manager.createNamedQuery("Person.withOrders", Shop.Person.class).getResultList();
        manager.clear();
        assertEquals(4, persons.stream().mapToInt(person -> person.orders.size()).sum());
    }

    @Test
    void aHintReadsOfEachEntityOfRows() {
        List<?> rows = manager.createQuery("SELECT o.number, p FROM Order o JOIN o.person p WHERE o.number > 10")
                .setHint(FETCH, ofPersons("orders")).getResultList();
        manager.clear();
        assertEquals(3, rows.size());
        for (Object row : rows) {
            assertFalse(((Shop.Person) ((Object[]) row)[1]).orders.isEmpty());
        }
    }

    @Test
    void aRelationOfAllIsReadInOneTrip() {
        manager.createQuery("SELECT p FROM Person p").setHint(FETCH, ofPersons("orders", "tags")).getResultList();
        assertTrue(manager.createQuery("SELECT t FROM Tag t").getResultList().size() == 3);
        assertEquals(2, asked().size());
    }

    // ---- graphs by their names

    @Test
    void aNamedGraphDoesNotChange() {
        EntityGraph<?> graph = manager.getEntityGraph("Person.withOrders");
        assertThrows(IllegalStateException.class, () -> graph.addAttributeNodes("tags"));
        Subgraph<?> orders = part(graph, "orders");
        assertThrows(IllegalStateException.class, () -> orders.addAttributeNodes("person"));
        EntityGraph<?> copy = manager.createEntityGraph("Person.withOrders");
        copy.addAttributeNodes("tags");
        part(copy, "orders").addAttributeNodes("person");
        assertEquals(Set.of("name", "orders", "team"), names(graph));
        assertEquals(Set.of("name", "orders", "tags", "team"), names(copy));
        assertNotSame(graph, copy);
    }

    private static Subgraph<?> part(EntityGraph<?> graph, String name) {
        AttributeNode<?> node = graph.getAttributeNodes().stream().filter(n -> n.getAttributeName().equals(name))
                .findFirst().orElseThrow();
        Subgraph<?> part = node.getSubgraphs().values().iterator().next();
        assertEquals(Shop.Order.class, part.getClassType());
        assertEquals(Map.of(), node.getKeySubgraphs());
        return part;
    }

    private static Set<String> names(EntityGraph<?> graph) {
        Set<String> names = new TreeSet<>();
        graph.getAttributeNodes().forEach(node -> names.add(node.getAttributeName()));
        return names;
    }

    @Test
    void graphsAreNamedLater() {
        EntityGraph<Shop.Team> graph = manager.createEntityGraph(Shop.Team.class);
        graph.addAttributeNodes("members");
        assertNull(graph.getName());
        factory.addNamedEntityGraph("Team.members", graph);
        graph.addAttributeNodes("leader");
        EntityGraph<?> named = manager.getEntityGraph("Team.members");
        assertEquals("Team.members", named.getName());
        assertEquals(Set.of("members"), names(named));
        assertThrows(IllegalStateException.class, () -> named.addAttributeNodes("leader"));
    }

    @Test
    void graphsOfAClassAreThoseAboveToo() {
        assertEquals(Set.of("Person", "Person.bosses", "Person.withOrders"), named(Shop.Vip.class));
        assertEquals(Set.of(), named(Shop.Item.class));
    }

    private Set<String> named(Class<?> type) {
        Set<String> names = new TreeSet<>();
        manager.getEntityGraphs(type).forEach(graph -> names.add(graph.getName()));
        return names;
    }

    @Test
    void ofWhatIsEmbedded() {
        EntityGraph<Shop.Person> graph = ofPersons();
        assertEquals(Shop.Address.class, graph.addSubgraph("address").getClassType());
        assertEquals("London", found(1, graph).address.city);
    }

    // ---- refused

    @Test
    void whatIsNoneIsRefused() {
        assertNull(manager.createEntityGraph("none"));
        refused("there is no entity graph named \"none\"", () -> manager.getEntityGraph("none"));
        refused("is no entity class", () -> manager.createEntityGraph(String.class));
        refused("is no entity class", () -> manager.getEntityGraphs(String.class));
        refused("Person has no attribute nam", () -> ofPersons("nam"));
        refused("Person.name is a value", () -> ofPersons().addSubgraph("name"));
        refused("Team is no Order", () -> ofPersons().addSubgraph("orders", Shop.Team.class));
        refused("Team isn't below Person", () -> ofPersons().addSubclassSubgraph(Shop.Team.class));
        refused("is no map", () -> ofPersons().addKeySubgraph("orders"));
        refused("an entity graph of this provider is expected",
                () -> manager.createQuery("SELECT p FROM Person p").setHint(FETCH, 7));
        refused("there is no entity graph named \"none\"",
                () -> manager.find(Shop.Person.class, 1L, Map.of(LOAD, "none")));
    }

    private static void refused(String words, Runnable asked) {
        String message = assertThrows(IllegalArgumentException.class, asked::run).getMessage();
        assertTrue(message.contains(words), message);
    }

    @Entity
    @NamedEntityGraph(name = "g", attributeNodes = @NamedAttributeNode("nam"))
    @NamedEntityGraph(name = "h", attributeNodes = @NamedAttributeNode(value = "other", subgraph = "none"))
    static class Faulty {
        @Id
        long id;
        @jakarta.persistence.ManyToOne
        Faulty other;
    }

    @Test
    void annotationsAreJudgedAsTheFactoryIsMade() {
        List<String> faults = new Graphs(Reader.read("faulty", List.of(Faulty.class))).faults();
        assertEquals(2, faults.size());
        assertTrue(faults.get(0).endsWith("Faulty: Faulty has no attribute nam; it has [id, other]"), faults.get(0));
        assertTrue(faults.get(1).endsWith("there is no subgraph \"none\""), faults.get(1));
    }
}
