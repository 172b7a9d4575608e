package karzhoul.jpa.context;

import java.util.List;
import java.util.Optional;
import karzhoul.jpa.model.Relation;
import karzhoul.jpa.model.UnkeptElements;

/** Which collection a refused flush was about: one that holds what can't stand in it. Asks nothing. */
final class WrongMembers {
    private final List<Entry> owners;

    /**
     * Of these entries.
     *
     * @param entries all that the refused context has
     */
    WrongMembers(List<Entry> entries) {
        owners = entries.stream().filter(entry -> entry.isManaged() && !entry.isHollow()).toList();
    }

    /** The relation of a member that is none of its target's class, as a raw type lets it in. */
    Optional<String> ofAnotherClass() {
        for (Entry entry : owners) {
            for (Relation relation : entry.model().relations()) {
                if (relation.isMany() && relation.elements().isEmpty()) {
                    for (Object member : Graph.members(relation.get(entry.instance()))) {
                        if (!isFit(relation, member)) {
                            return Optional.of(told(entry, relation, member));
                        }
                    }
                }
            }
        }
        return Optional.empty();
    }

    static boolean isFit(Relation relation, Object member) {
        return relation.elements().isPresent() || relation.target().javaClass().isInstance(member);
    }

    static String told(Object owner, Relation relation, Object member) {
        return owner + "." + relation.path() + " has a member of " + member.getClass().getName() + ", and its members are of "
            + relation.target().name() + ": take it out";
    }

    /** The refusal of an element with the owner of its collection. */
    UnkeptElements owned(UnkeptElements refusal) {
        for (Entry entry : owners) {
            for (Relation relation : entry.model().relations()) {
                if (relation.elements().isPresent() && refusal.getMessage().equals(refused(entry, relation))) {
                    return refusal.of(entry);
                }
            }
        }
        return refusal;
    }

    private static String refused(Entry entry, Relation relation) {
        try {
            relation.get(entry.instance());
            return null;
        } catch (UnkeptElements unkept) {
            return unkept.getMessage();
        }
    }
}
