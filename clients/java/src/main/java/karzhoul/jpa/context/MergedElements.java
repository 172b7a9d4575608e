package karzhoul.jpa.context;

import java.util.List;
import karzhoul.jpa.model.Elements;
import karzhoul.jpa.model.EntityModel;
import karzhoul.jpa.model.Relation;

/**
 * Collections of values of what is merged (chapter 3.2.7): as far as their elements are those of the image, they are
 * made of the image's rows, so that a merge changes what differs alone.
 */
final class MergedElements {
    private final Context context;

    MergedElements(Context context) {
        this.context = context;
    }

    /** Lets an instance that is to be copied have the rows of its image. */
    void adopt(Object source) {
        EntityModel model = context.modelOf(source);
        Entry image = null;
        for (Relation relation : model.relations()) {
            Elements elements = relation.elements().orElse(null);
            if (elements != null && !Unread.is(relation.get(source))) {
                image = image == null ? imageOf(model, source) : image;
                elements.adopt(source, image == null ? List.of() : rows(image, relation));
            }
        }
    }

    private Entry imageOf(EntityModel model, Object source) {
        List<Object> key = Targets.keyOf(model, source);
        Entry known = key == null ? null : context.identities().of(model, key);
        if (known != null && known.isHollow()) {
            new Fill(context).proxy(known);
        }
        return known != null || key == null ? known : new Fill(context).found(model.root(), key);
    }

    /** The rows that the image is known to have, which are read where they weren't. */
    @SuppressWarnings("unchecked")
    private List<Object> rows(Entry image, Relation relation) {
        if (image.isUnread(relation)) {
            new Targets(context).read(image, relation);
        }
        return Members.instances((List<Entry>) image.relations[relation.place()], relation);
    }
}
