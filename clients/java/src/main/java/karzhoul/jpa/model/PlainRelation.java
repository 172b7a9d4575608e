package karzhoul.jpa.model;

import jakarta.persistence.CascadeType;
import jakarta.persistence.MapKey;
import java.util.List;
import java.util.Optional;
import java.util.Set;

/** A relation as it was read; its target, its owner and its orders are joined to it once all entities were read. */
final class PlainRelation implements Relation {
    /** What the annotations say by themselves. */
    record Said(
            Member declared, Class<?> target, String mappedBy, Kind kind, Container container,
                    Set<CascadeType> cascades,
            boolean removesOrphans, boolean isLazy, boolean isRequired) {}

    private final String path;
    private final String member;
    private final Said said;
    private final Place where;
    private final String storedName;
    private EntityModel target;
    private PlainRelation owner;
    private List<Order> orders = List.of();
    private ListOrder listOrder;
    private int place = -1;

    /**
     * @param storedName the name of the column or of the join table, of which its number is made; null of an inverse
     *     one
     */
    PlainRelation(String path, String member, Said said, Place where, String storedName) {
        this.path = path;
        this.member = member;
        this.said = said;
        this.where = where;
        this.storedName = storedName;
    }

    Said said() {
        return said;
    }

    String storedName() {
        return storedName;
    }

    int number() {
        return Names.number(storedName);
    }

    void leadsTo(EntityModel target) {
        this.target = target;
    }

    void isOwnedBy(PlainRelation owner) {
        this.owner = owner;
    }

    /** Where it stands, where that is a map; else null. */
    MapPlace map() {
        return where instanceof MapPlace map ? map : null;
    }

    void isSortedBy(List<Order> orders) {
        this.orders = List.copyOf(orders);
        if (where instanceof ElementPlace elements) {
            elements.isSorted();
        }
    }

    void isOrderedBy(ListOrder order) {
        listOrder = order;
    }

    Place where() {
        return where;
    }

    void stands(int place) {
        this.place = place;
    }

    @Override
    public String path() {
        return path;
    }

    @Override
    public String member() {
        return member;
    }

    @Override
    public int place() {
        return place;
    }

    @Override
    public Kind kind() {
        return said.kind;
    }

    @Override
    public Container container() {
        return said.container;
    }

    @Override
    public EntityModel target() {
        return target;
    }

    @Override
    public Optional<Relation> mappedBy() {
        return Optional.ofNullable(owner);
    }

    @Override
    public boolean isOwner() {
        return said.mappedBy.isEmpty();
    }

    @Override
    public Set<CascadeType> cascades() {
        return said.cascades;
    }

    @Override
    public boolean removesOrphans() {
        return said.removesOrphans;
    }

    @Override
    public boolean isJoined() {
        return said.kind == Kind.ONE_TO_MANY && isOwner();
    }

    @Override
    public boolean isLazy() {
        return said.isLazy;
    }

    @Override
    public boolean isRequired() {
        return said.isRequired;
    }

    @Override
    public Optional<Elements> elements() {
        return where instanceof ElementPlace elements ? Optional.of(elements) : Optional.empty();
    }

    @Override
    public Optional<String> mapKey() {
        return Optional.ofNullable(map()).map(it -> said.declared.find(MapKey.class).map(MapKey::name).orElse(""));
    }

    @Override
    public Optional<ListOrder> listOrder() {
        return Optional.ofNullable(listOrder);
    }

    @Override
    public List<Order> orders() {
        return orders;
    }

    @Override
    public Object get(Object instance) {
        return where.get(instance);
    }

    @Override
    public void set(Object instance, Object value) {
        where.set(instance, value);
    }

    @Override
    public Object held(Object instance) {
        return where.held(instance);
    }

    @Override
    public Object holder(Object instance) {
        return where.holder(instance);
    }

    @Override
    public void hold(Object instance, Object held) {
        where.hold(instance, held);
    }

    @Override
    public String toString() {
        return path;
    }
}
