package karzhoul.jpa.model;

import jakarta.persistence.JoinColumn;
import jakarta.persistence.MapKey;
import jakarta.persistence.OrderBy;
import java.util.ArrayList;
import java.util.HashMap;
import java.util.List;
import java.util.Map;
import java.util.Optional;
import karzhoul.jpa.model.Relation.Kind;

/** Joins relations to their targets, inverse sides to their owners, and lists to what they are sorted by. */
final class Joiner {
    private final Faults faults;
    private final Map<Class<?>, PlainEntity> entities;
    private final Map<PlainRelation, PlainRelation> inverses = new HashMap<>();

    Joiner(Faults faults, Map<Class<?>, PlainEntity> entities) {
        this.faults = faults;
        this.entities = entities;
    }

    void join(List<PlainEntity> all) {
        for (PlainEntity entity : all) {
            entity.ownRelations().stream().filter(it -> it.target() == null).forEach(this::findTarget);
        }
        for (PlainEntity entity : all) {
            entity.ownRelations().stream().filter(it -> it.target() != null).forEach(it -> {
                findOwner(entity, it);
                checkReferenced(it);
                sort(it);
                findMapKey(it);
            });
            entity.ownCopies().stream().filter(it -> it.relation().target() != null).forEach(this::checkCopy);
        }
    }

    private void findTarget(PlainRelation relation) {
        Class<?> target = relation.said().target();
        PlainEntity entity = entities.get(target);
        if (entity != null) {
            relation.leadsTo(entity);
        } else {
            faults.add(relation.said().declared(), "it leads to " + target.getName()
                    + ", which is no entity of the unit",
                    "Annotate that class with @Entity, and list it in persistence.xml");
        }
    }

    private void findOwner(PlainEntity entity, PlainRelation relation) {
        String mappedBy = relation.said().mappedBy();
        if (mappedBy.isEmpty()) {
            return;
        }
        Member member = relation.said().declared();
        Optional<PlainRelation> owner = ((PlainEntity) relation.target()).relation(mappedBy);
        if (owner.isEmpty() || !isOpposite(relation.kind(), owner.get())) {
            faults.add(member, "mappedBy names " + mappedBy + ", which is no " + opposite(relation.kind()) + " of "
                    + relation.target().name(), "Name the member there that owns the relation");
        } else if (owner.get().target() != entity) {
            faults.add(member, "mappedBy names " + mappedBy + " of " + relation.target().name() + ", which leads to "
                    + owner.get().said().target().getName(), "Let it lead to " + entity.javaClass().getName());
        } else if (inverses.putIfAbsent(owner.get(), relation) != null) {
            faults.add(member, "another relation is mapped by " + mappedBy + " too", "Leave one of them");
        } else {
            relation.isOwnedBy(owner.get());
        }
    }

    /** What reads the column of a relation is of the type of the key there. */
    private void checkCopy(KeyCopy copy) {
        PlainKey key = ((PlainEntity) copy.relation().target()).plainKey();
        if (key == null) {
            return;
        }
        Codec part = key.parts().get(0).codec();
        if (key.parts().size() > 1) {
            faults.add(copy.declared(), "it reads the columns of " + copy.relation().path() + ", which are "
                    + key.parts().size(), "Leave it out, and read the key of " + copy.relation().path());
        } else if (part.sort() != copy.codec().sort() || !part.meaning().equals(copy.codec().meaning())) {
            faults.add(copy.declared(), "it reads the column of " + copy.relation().path() + ", which is of "
                    + part.javaType().getName(), "Declare it as that");
        }
    }

    /** A column of a relation refers to the key: to another column it can't. */
    private void checkReferenced(PlainRelation relation) {
        PlainKey key = ((PlainEntity) relation.target()).plainKey();
        Member member = relation.said().declared();
        for (JoinColumn column : Repeated.of(member.annotated(), JoinColumn.class)) {
            String name = column.referencedColumnName();
            boolean isKey = name.isEmpty() || key == null || relation.isMany() || key.hasColumn(name);
            if (!isKey) {
                faults.add(member, "it refers to the column " + name + " of " + relation.target().name()
                        + ", which is no part of its key",
                        "Leave referencedColumnName out, or make that column the key");
            }
        }
    }

    /** By which attribute a map of entities is kept; without a name by their key (chapter 11.1.33). */
    private void findMapKey(PlainRelation relation) {
        if (relation.map() == null) {
            return;
        }
        PlainEntity target = (PlainEntity) relation.target();
        String name = relation.said().declared().find(MapKey.class).map(MapKey::name).orElse("");
        Optional<Attribute> by = name.isEmpty() ? Optional.empty() : target.find(name);
        boolean isKey = target.plainKey() != null
                && (name.isEmpty() || target.plainKey().embedded().filter(name::equals).isPresent());
        if (isKey) {
            PlainKey key = target.plainKey();
            relation.map().isKeyedBy(key::of);
        } else if (by.isPresent()) {
            relation.map().isKeyedBy(by.get()::get);
        } else if (target.plainKey() != null) {
            faults.add(relation.said().declared(), "@MapKey names \"" + name + "\", which is no attribute of "
                    + target.name(), "Name an attribute of the members, or leave the name out");
        }
    }

    private static boolean isOpposite(Kind kind, PlainRelation owner) {
        return owner.isOwner() && !owner.isJoined() && owner.kind() == switch (kind) {
            case ONE_TO_MANY -> Kind.MANY_TO_ONE;
            case MANY_TO_ONE -> Kind.ONE_TO_MANY;
            default -> kind;
        };
    }

    private static String opposite(Kind kind) {
        return switch (kind) {
            case ONE_TO_MANY -> "@ManyToOne";
            case ONE_TO_ONE -> "@OneToOne without mappedBy";
            default -> "@ManyToMany without mappedBy";
        };
    }

    /** By the paths of {@code @OrderBy}; without any by the key (chapter 11.1.42). */
    private void sort(PlainRelation relation) {
        Optional<OrderBy> orderBy = relation.said().declared().find(OrderBy.class);
        if (orderBy.isEmpty()) {
            return;
        }
        PlainEntity target = (PlainEntity) relation.target();
        List<Relation.Order> orders = new ArrayList<>();
        if (orderBy.get().value().isBlank() && relation.elements().isPresent()) {
            relation.elements().get().attributes().forEach(it -> orders.add(new Relation.Order(it, false)));
        } else if (orderBy.get().value().isBlank() && target.plainKey() != null) {
            target.plainKey().parts().forEach(part -> orders.add(new Relation.Order(part, false)));
        }
        for (String item : orderBy.get().value().isBlank() ? new String[0] : orderBy.get().value().split(",")) {
            String[] words = item.trim().split("\\s+");
            boolean isDescending = words.length == 2 && words[1].equalsIgnoreCase("DESC");
            boolean isWell = words.length == 1 || words.length == 2
                    && (isDescending || words[1].equalsIgnoreCase("ASC"));
            Optional<Attribute> by = isWell ? target.find(words[0]) : Optional.empty();
            if (by.isEmpty()) {
                faults.add(relation.said().declared(), "@OrderBy names \"" + item.trim()
                        + "\", which is no attribute of "
                        + target.name() + ", with ASC or DESC", "Name attributes of the members");
            }
            by.ifPresent(it -> orders.add(new Relation.Order(it, isDescending)));
        }
        relation.isSortedBy(orders);
    }
}
