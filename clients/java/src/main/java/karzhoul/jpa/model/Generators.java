package karzhoul.jpa.model;

import jakarta.persistence.GeneratedValue;
import jakarta.persistence.SequenceGenerator;
import jakarta.persistence.TableGenerator;
import java.lang.reflect.AnnotatedElement;
import java.util.ArrayList;
import java.util.HashMap;
import java.util.LinkedHashMap;
import java.util.List;
import java.util.Map;

/**
 * The generators that have a name (chapter 11.1.20). One that begins at 1 for a single hierarchy is the program's own
 * counter of that hierarchy; any other one is a {@link Sequence}.
 */
final class Generators {
    /**
     * What a generator says.
     *
     * @param counter what it counts in: generators that name one sequence, or one row of a table, count together
     */
    private record Said(String counter, long first, int size) {}

    /** Who asks a counter for keys. */
    private record Use(Member member, PlainEntity entity, Said said) {}

    private final Faults faults;
    private final Names entityNames;
    private final Map<String, Said> defined = new HashMap<>();
    private final Map<String, SequenceGenerator> sequences = new HashMap<>();
    private final Map<String, TableGenerator> tables = new HashMap<>();
    private final Map<String, List<Use>> uses = new LinkedHashMap<>();

    /** @param entityNames the names that entities of the mapping have already */
    Generators(Faults faults, Names entityNames) {
        this.faults = faults;
        this.entityNames = entityNames;
    }

    /** Takes what a class, a member or a package defines. */
    void define(AnnotatedElement element) {
        for (SequenceGenerator it : Repeated.of(element, SequenceGenerator.class)) {
            sequences.put(it.name(), it);
            String sequence = it.sequenceName().isEmpty() ? it.name() : it.sequenceName();
            defined.put(it.name(), new Said("sequence " + RelationReader.qualified(it.catalog(), it.schema(), sequence),
                    it.initialValue(), it.allocationSize()));
        }
        for (TableGenerator it : Repeated.of(element, TableGenerator.class)) {
            tables.put(it.name(), it);
            String row = it.pkColumnValue().isEmpty() ? it.name() : it.pkColumnValue();
            String table = RelationReader.qualified(it.catalog(), it.schema(), it.table());
            // a table has the number that was given last
            defined.put(it.name(), new Said("row " + row + (table.isEmpty() ? "" : " of the table " + table), it.initialValue() + 1L,
                    it.allocationSize()));
        }
    }

    /** Takes what the key of an entity says; the empty name is no one's. */
    void use(Member member, PlainEntity entity, GeneratedValue generated) {
        String name = generated.generator();
        define(member.annotated());
        entity.isGeneratedBy(new KeyGenerator(generated.strategy(), name, sequences.get(name), tables.get(name)));
        Said said = defined.getOrDefault(name, new Said("sequence " + name, 1, 1));
        if (name.isEmpty()) {
            return;
        } else if (said.size() < 1) {
            faults.add(member, "the generator " + name + " takes " + said.size() + " keys at a time",
                    "Give it an allocationSize of at least 1");
        }
        uses.computeIfAbsent(said.counter(), none -> new ArrayList<>()).add(new Use(member, entity, said));
    }

    /** Gives keys their sequences; answers the entities of the mapping that these need. */
    List<PlainEntity> sequences() {
        List<PlainEntity> all = new ArrayList<>();
        uses.forEach((counter, users) -> {
            Use first = users.get(0);
            boolean isShared = users.stream().anyMatch(use -> !use.member().equals(first.member()));
            users.stream().filter(use -> !use.said().equals(first.said())).findFirst().ifPresent(other ->
                    faults.add(other.member(), "its generator counts in the " + counter + " as that of "
                            + first.entity().javaClass().getName() + ", and begins or allocates otherwise",
                            "Give both the same initialValue and allocationSize"));
            if (isShared || first.said().first() > 1) {
                PlainEntity blocks = Sequence.blocks("generator " + counter, entityNames.give("generator_" + counter),
                        first.entity().javaClass().getName());
                Sequence sequence = new Sequence(blocks.mappedName(), Sequence.KEY, first.said().first(),
                        first.said().size());
                users.forEach(use -> give(use.entity(), sequence, blocks));
                all.add(blocks);
            }
        });
        return all;
    }

    private static void give(PlainEntity entity, Sequence sequence, PlainEntity blocks) {
        if (entity.plainKey() != null) {
            entity.plainKey().isGivenBy(sequence);
            blocks.isSequence(sequence);
        }
    }
}
