package karzhoul.jpa.model;

import jakarta.persistence.Basic;
import jakarta.persistence.CascadeType;
import jakarta.persistence.CollectionTable;
import jakarta.persistence.Column;
import jakarta.persistence.ElementCollection;
import jakarta.persistence.Embeddable;
import jakarta.persistence.Entity;
import jakarta.persistence.FetchType;
import jakarta.persistence.ManyToMany;
import jakarta.persistence.MapKeyClass;
import jakarta.persistence.MapKeyColumn;
import jakarta.persistence.MapKeyJoinColumn;
import jakarta.persistence.OneToMany;
import jakarta.persistence.OrderColumn;
import java.lang.invoke.MethodHandle;
import java.lang.invoke.MethodHandles;
import java.lang.invoke.MethodType;
import java.lang.reflect.ParameterizedType;
import java.lang.reflect.Type;
import java.util.ArrayList;
import java.util.Collection;
import java.util.EnumSet;
import java.util.List;
import java.util.Map;
import java.util.Optional;
import java.util.Set;
import java.util.stream.Collectors;
import karzhoul.jpa.model.Relation.Container;

/**
 * Reads collections of values (chapters 2.6, 2.7 and 11.1.14). Each has an entity of rows that the mapping has and the
 * application doesn't see, and a relation to it, along which all cascades.
 */
final class ElementReader {
    /** The paths of the columns that no attribute of an embeddable has: a place, a key of a map, a basic value. */
    static final String INDEX = "#index";
    static final String KEY = "#key";
    static final String VALUE = "#element";

    private static final Set<CascadeType> ALL = Set.copyOf(EnumSet.complementOf(EnumSet.of(CascadeType.ALL)));
    private static final String ROW = "row_";
    private static final String ELEMENT = "element_";
    private static final String PLACE = "place_";

    private final Faults faults;
    private final Codecs codecs;
    private final MemberCheck memberCheck;
    private final EntityReader owner;
    private final PlainEntity entity;
    private final Names entityNames;

    /** @param entityNames the names that entities of the mapping have already */
    ElementReader(Faults faults, Codecs codecs, EntityReader owner, PlainEntity entity, Names entityNames) {
        this.faults = faults;
        this.codecs = codecs;
        this.memberCheck = new MemberCheck(faults);
        this.owner = owner;
        this.entity = entity;
        this.entityNames = entityNames;
    }

    /** The attributes of the rows, as they are read. */
    private static final class Draft {
        private final PlainEntity rows;
        private final List<ElementShape.Part> parts = new ArrayList<>();
        private final Names names = new Names();
        private int slots;

        Draft(PlainEntity rows) {
            this.rows = rows;
        }

        PlainAttribute has(String path, String name, Codec codec, boolean isRequired, String column) {
            PlainAttribute attribute = new PlainAttribute(path, names.give(name), Attribute.Role.PLAIN, codec,
                    isRequired, new ElementRow.Slot(++slots, codec), column);
            rows.has(attribute);
            return attribute;
        }
    }

    /**
     * Reads one, and gives the entity its relation.
     *
     * @param name the relation's name in the mapping
     * @return the entity of its rows; empty where there is a fault, which was told then
     */
    Optional<PlainEntity> read(Member member, Place way, String path, String name, Scope scope, String inScope) {
        Optional<Container> container = container(member);
        Optional<Type> type = container.flatMap(it -> elementType(member, it));
        if (type.isEmpty()) {
            return Optional.empty();
        }
        Draft draft = draft(member, path);
        int told = faults.found().size();
        PlainAttribute place = place(member, container.get(), draft, path, scope, inScope);
        MethodHandle constructor = elements(new Member(member.name(), member.declaring(), type.get(),
                member.annotated(), member.accessor()), container.get() == Container.MAP, draft, path, scope, inScope);
        if (faults.found().size() > told) {
            return Optional.empty();
        }
        ElementShape shape = new ElementShape(entity.name() + "." + path, container.get(), draft.rows, constructor,
                draft.parts, place);
        ElementPlace where = new ElementPlace(way, shape, Types.raw(type.get()));
        draft.rows.isRowsOf(where, entity.javaClass().getName() + "." + path);
        PlainRelation relation = new PlainRelation(path, name, new PlainRelation.Said(member, ElementRow.class, "",
                Relation.Kind.ONE_TO_MANY, Container.LIST, ALL, true,
                member.find(ElementCollection.class).orElseThrow().fetch() == FetchType.LAZY, false),
                where, draft.rows.table() + " of " + entity.table());
        relation.leadsTo(draft.rows);
        entity.has(relation);
        return Optional.of(draft.rows);
    }

    /** The entity of the rows, with its key. */
    private Draft draft(Member member, String path) {
        Optional<CollectionTable> said = member.find(CollectionTable.class);
        String table = said.isPresent() && !said.get().name().isEmpty()
                ? RelationReader.qualified(said.get().catalog(), said.get().schema(), said.get().name())
                : entity.name() + "_" + path;
        PlainEntity rows = new PlainEntity(ElementRow.class, entity.name() + "." + path,
                entityNames.give(entity.name() + "." + path), null, table, "row");
        rows.isMadeBy(maker(rows));
        Draft draft = new Draft(rows);
        Codec whole = BasicCodecs.fixed(Long.class);
        PlainAttribute key = new PlainAttribute("#row", draft.names.give(ROW), Attribute.Role.KEY, whole, true,
                new ElementRow.Slot(0, whole), "#row");
        rows.isKnownBy(new PlainKey(List.of(key), KeyModel.Generation.COUNTER, null, null, null, false), null);
        return draft;
    }

    private static MethodHandle maker(PlainEntity rows) {
        try {
            return MethodHandles.lookup()
                    .findConstructor(ElementRow.class, MethodType.methodType(void.class, EntityModel.class))
                    .bindTo(rows).asType(MethodType.methodType(Object.class));
        } catch (ReflectiveOperationException never) {
            throw new IllegalStateException(never);
        }
    }

    private Optional<Container> container(Member member) {
        Class<?> type = member.javaType();
        Container container = type == List.class ? Container.LIST
                : type == Set.class ? Container.SET
                : type == Collection.class ? Container.COLLECTION
                : type == Map.class ? Container.MAP : null;
        if (member.has(OneToMany.class) || member.has(ManyToMany.class)) {
            return Optional.empty();        // told already: it is one or the other
        }
        if (container == null) {
            faults.add(member, "it is declared as " + type.getName(), "Declare it as List, Set, Collection or Map");
        }
        return Optional.ofNullable(container);
    }

    private Optional<Type> elementType(Member member, Container container) {
        Class<?> named = member.find(ElementCollection.class).orElseThrow().targetClass();
        int place = container == Container.MAP ? 1 : 0;
        if (named != void.class) {
            return Optional.of(named);
        }
        if (member.type() instanceof ParameterizedType applied) {
            return Optional.of(applied.getActualTypeArguments()[place]);
        }
        faults.add(member, "its collection doesn't say of what it is", "Write its type, or targetClass");
        return Optional.empty();
    }

    /** The key of a map, or the place in an ordered list; else null. */
    private PlainAttribute place(Member member, Container container, Draft draft, String path, Scope scope,
            String inScope) {
        if (container == Container.MAP) {
            return key(member, draft, path, scope, inScope);
        }
        Optional<OrderColumn> order = member.find(OrderColumn.class);
        if (order.isEmpty()) {
            return null;
        }
        if (container != Container.LIST) {
            faults.add(member, "@OrderColumn orders a List", "Declare it as List");
        }
        String column = order.get().name().isEmpty() ? last(path) + "_ORDER" : order.get().name();
        return draft.has(INDEX, PLACE, BasicCodecs.fixed(Integer.class), true, column);
    }

    private static String last(String path) {
        return path.substring(path.lastIndexOf('.') + 1);
    }

    private PlainAttribute key(Member member, Draft draft, String path, Scope scope, String inScope) {
        Optional<Class<?>> named = member.find(MapKeyClass.class).map(MapKeyClass::value);
        Optional<Class<?>> type = named.or(() -> Types.argument(member.type(), 0));
        if (type.isEmpty()) {
            faults.add(member, "its map doesn't say of what its keys are", "Write its type, or @MapKeyClass");
            return null;
        }
        boolean isPlain = !member.has(MapKeyJoinColumn.class) && !type.get().isAnnotationPresent(Embeddable.class)
                && !type.get().isAnnotationPresent(Entity.class);
        if (!isPlain) {
            faults.add(member, "keys of " + type.get().getName() + " aren't kept: keys of maps are basic values or enums",
                    "Make the elements entities, with an attribute by which they are found");
            return null;
        }
        String column = member.find(MapKeyColumn.class).map(MapKeyColumn::name).filter(it -> !it.isEmpty())
                .orElse(last(path) + "_KEY");
        Optional<Codec> codec = codecs.ofMapKey(member, type.get(), scope, inScope);
        return codec.map(it -> draft.has(KEY, PLACE, it, true, column).within(Width.ofMapKey(member, it))).orElse(null);
    }

    /** Reads what elements have; answers the constructor of an embeddable, or null. */
    private MethodHandle elements(Member member, boolean isMap, Draft draft, String path, Scope scope, String inScope) {
        if (!member.javaType().isAnnotationPresent(Embeddable.class)) {
            basic(member, isMap, draft, path, scope, inScope);
            return null;
        }
        Optional<MethodHandle> constructor = EntityReader.embeddable(faults, member);
        if (constructor.isEmpty()) {
            return null;
        }
        Scope around = new Scope(scope, inScope + ".", member.annotated());
        Scope inner = isMap ? new Scope(around, "value.", ElementRow.class) : around;
        for (Member part : owner.embeddedMembers(member.javaType(), member)) {
            part(part, Way.to(part), part.name(), inner, part.name(), draft, 0);
        }
        String before = isMap ? "value." : "";
        memberCheck.checkOverrides(member, draft.parts.stream().map(it -> before + it.attribute().path())
                .collect(Collectors.toSet()));
        return constructor.get();
    }

    private void basic(Member member, boolean isMap, Draft draft, String path, Scope scope, String inScope) {
        Optional<Column> column = scope.column(inScope).or(() -> member.find(Column.class));
        Scope values = isMap ? new Scope(null, "", member.annotated()) : scope;
        Optional<Codec> codec = codecs.of(member, values, isMap ? "value" : inScope, column);
        column.ifPresent(it -> memberCheck.check(member, it));
        String name = column.map(Column::name).filter(it -> !it.isEmpty()).orElse(last(path));
        boolean isRequired = column.filter(it -> !it.nullable()).isPresent();
        boolean isUnique = column.filter(Column::unique).isPresent();
        codec.ifPresent(it -> draft.parts.add(new ElementShape.Part(
                draft.has(VALUE, ELEMENT, it, isRequired, name).unique(isUnique).within(Width.of(member, it, column)),
                null)));
    }

    private void part(Member member, Way way, String path, Scope scope, String inScope, Draft draft, int depth) {
        memberCheck.check(member);
        if (RelationReader.isRelation(member) || member.has(ElementCollection.class)) {
            faults.add(member, "an element of a collection has no relations and collections of its own",
                    "Make the elements entities, with @OneToMany and cascade ALL");
        } else if (member.javaType().isAnnotationPresent(Embeddable.class)) {
            Optional<MethodHandle> constructor = EntityReader.embeddable(faults, member);
            if (constructor.isEmpty() || depth == EntityReader.MOST_NESTED) {
                return;
            }
            Scope inner = new Scope(scope, inScope + ".", member.annotated());
            for (Member deeper : owner.embeddedMembers(member.javaType(), member)) {
                part(deeper, way.then(constructor.get(), deeper), path + "." + deeper.name(), inner, deeper.name(),
                        draft, depth + 1);
            }
        } else {
            Optional<Column> column = scope.column(inScope).or(() -> member.find(Column.class));
            column.ifPresent(it -> memberCheck.check(member, it));
            boolean isRequired = column.filter(it -> !it.nullable()).isPresent()
                    || member.find(Basic.class).filter(it -> !it.optional()).isPresent();
            String name = column.map(Column::name).filter(it -> !it.isEmpty()).orElse(path);
            boolean isUnique = column.filter(Column::unique).isPresent();
            codecs.of(member, scope, inScope, column).ifPresent(it -> draft.parts.add(new ElementShape.Part(
                    draft.has(path, path, it, isRequired, name).unique(isUnique).within(Width.of(member, it, column)),
                    way)));
        }
    }
}
