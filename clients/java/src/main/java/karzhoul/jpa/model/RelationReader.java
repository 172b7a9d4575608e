package karzhoul.jpa.model;

import jakarta.persistence.AssociationOverride;
import jakarta.persistence.CascadeType;
import jakarta.persistence.FetchType;
import jakarta.persistence.JoinColumn;
import jakarta.persistence.JoinTable;
import jakarta.persistence.ManyToMany;
import jakarta.persistence.ManyToOne;
import jakarta.persistence.MapKey;
import jakarta.persistence.MapKeyClass;
import jakarta.persistence.MapKeyColumn;
import jakarta.persistence.MapKeyJoinColumn;
import jakarta.persistence.OneToMany;
import jakarta.persistence.OneToOne;
import java.util.Arrays;
import java.util.Collection;
import java.util.EnumSet;
import java.util.List;
import java.util.Map;
import java.util.Optional;
import java.util.Set;
import java.util.stream.Collectors;
import karzhoul.jpa.model.Relation.Container;
import karzhoul.jpa.model.Relation.Kind;

/** Reads the annotations of relations (chapters 2.10 and 11.1). */
final class RelationReader {
    private final Faults faults;

    RelationReader(Faults faults) {
        this.faults = faults;
    }

    static boolean isRelation(Member member) {
        return member.has(ManyToOne.class) || member.has(OneToOne.class) || member.has(OneToMany.class)
                || member.has(ManyToMany.class);
    }

    /** What the annotations of a member say; empty where they are wrong, which was told then. */
    Optional<PlainRelation.Said> read(Member member) {
        Optional<Container> container = container(member);
        boolean isMany = member.has(OneToMany.class) || member.has(ManyToMany.class);
        if (container.isEmpty() || !fits(member, container.get(), isMany)) {
            return Optional.empty();
        }
        Class<?> type = isMany ? Types.argument(member.type(), container.get() == Container.MAP ? 1 : 0).orElse(null) : member.javaType();
        var one = member.find(ManyToOne.class);
        if (one.isPresent()) {
            return said(member, container.get(), Kind.MANY_TO_ONE, one.get().targetEntity(), type, "", one.get()
                    .cascade(), false,
                    one.get().fetch(), !one.get().optional());
        }
        var only = member.find(OneToOne.class);
        if (only.isPresent()) {
            OneToOne it = only.get();
            return said(member, container.get(), Kind.ONE_TO_ONE, it.targetEntity(), type, it.mappedBy(), it.cascade(),
                    it.orphanRemoval(), it.fetch(), !it.optional() && it.mappedBy().isEmpty());
        }
        var members = member.find(OneToMany.class);
        if (members.isPresent()) {
            OneToMany it = members.get();
            return said(member, container.get(), Kind.ONE_TO_MANY, it.targetEntity(), type, it.mappedBy(), it.cascade(),
                    it.orphanRemoval(), it.fetch(), false);
        }
        ManyToMany it = member.find(ManyToMany.class).orElseThrow();
        return said(member, container.get(), Kind.MANY_TO_MANY, it.targetEntity(), type, it.mappedBy(), it.cascade(),
                false,
                it.fetch(), false);
    }

    private Optional<PlainRelation.Said> said(
            Member member, Container container, Kind kind, Class<?> named, Class<?> type, String mappedBy,
                    CascadeType[] cascade,
            boolean removesOrphans, FetchType fetch, boolean isRequired) {
        Class<?> target = named != void.class ? named : type;
        if (target == null) {
            faults.add(member, "its collection doesn't say of which entity it is", "Write its type, or targetEntity");
            return Optional.empty();
        }
        boolean isNeeded = isRequired || kind != Kind.ONE_TO_MANY && kind != Kind.MANY_TO_MANY && mappedBy.isEmpty()
                && Arrays.stream(Repeated.of(member.annotated(), JoinColumn.class))
                        .anyMatch(it -> !it.nullable());
        return Optional.of(new PlainRelation.Said(member, target, mappedBy, kind, container, cascades(cascade),
                removesOrphans,
                fetch == FetchType.LAZY, isNeeded));
    }

    private static Set<CascadeType> cascades(CascadeType[] said) {
        Set<CascadeType> all = EnumSet.noneOf(CascadeType.class);
        for (CascadeType one : said) {
            if (one == CascadeType.ALL) {
                all.addAll(EnumSet.complementOf(EnumSet.of(CascadeType.ALL)));
            } else {
                all.add(one);
            }
        }
        return Set.copyOf(all);
    }

    private Optional<Container> container(Member member) {
        Class<?> type = member.javaType();
        if (type == List.class) {
            return Optional.of(Container.LIST);
        }
        if (type == Set.class) {
            return Optional.of(Container.SET);
        }
        if (type == Collection.class) {
            return Optional.of(Container.COLLECTION);
        }
        if (Map.class.isAssignableFrom(type)) {
            return Optional.of(Container.MAP);
        }
        if (Collection.class.isAssignableFrom(type)) {
            faults.add(member, "it is declared as " + type.getName(), "Declare it as List, Set or Collection");
            return Optional.empty();
        }
        return Optional.of(Container.ONE);
    }

    private boolean fits(Member member, Container container, boolean isMany) {
        boolean isByItself = member.has(MapKeyColumn.class) || member.has(MapKeyClass.class)
                || member.has(MapKeyJoinColumn.class) || container == Container.MAP && !member.has(MapKey.class);
        if (isByItself) {
            faults.add(member, "keys of maps of entities aren't kept by themselves",
                    "Let an attribute of the members be the key, with @MapKey(name)");
        } else if (member.has(MapKey.class) && container != Container.MAP) {
            faults.add(member, "it has @MapKey, and is no map", "Declare it as Map");
        }
        if (isMany != (container != Container.ONE)) {
            faults.add(member,
                    isMany ? "a relation to many needs a collection" : "a relation to one can't be a collection",
                    isMany ? "Declare it as List, Set or Collection, or use @ManyToOne"
                            : "Use @OneToMany or @ManyToMany");
        }
        return !isByItself && isMany == (container != Container.ONE);
    }

    /** The name of which the number of an owned relation's column or join table is made. */
    static String storedName(Member member, PlainRelation.Said said, String table, String path,
            Optional<AssociationOverride> override) {
        JoinTable joinTable = override.map(AssociationOverride::joinTable).filter(it -> !it.name().isEmpty())
                .or(() -> member.find(JoinTable.class)).orElse(null);
        JoinColumn[] columns = override.map(AssociationOverride::joinColumns).filter(it -> it.length > 0)
                .orElseGet(() -> Repeated.of(member.annotated(), JoinColumn.class));
        if (columns.length == 0 && joinTable != null) {
            columns = joinTable.inverseJoinColumns();
        }
        String named = Arrays.stream(columns).map(JoinColumn::name).filter(it -> !it.isEmpty())
                .collect(Collectors.joining(" "));
        if (said.container() == Container.ONE) {
            return named.isEmpty() ? path : named;
        }
        if (joinTable != null && !joinTable.name().isEmpty()) {
            return qualified(joinTable.catalog(), joinTable.schema(), joinTable.name());
        }
        return named.isEmpty() || joinTable != null ? table + "_" + path : table + "." + named;
    }

    static String qualified(String catalog, String schema, String name) {
        String inSchema = schema.isEmpty() ? name : schema + "." + name;
        return catalog.isEmpty() ? inSchema : catalog + "." + inSchema;
    }
}
