"""The merge of the model: what is merged, each along the cascades of MERGE, finds or gets an image
that the manager manages; then its values and relations are copied onto that, and at last the new
images are told."""
from __future__ import annotations

from typing import TYPE_CHECKING

from model.cells import members
from model.reading import Number, Refused

if TYPE_CHECKING:
    from model.kinds import Events
    from model.live import Live, Manager


class Merging:
    """The part of the machine that merges."""

    def merge(self, events: Events, em: int, number: int) -> Number:
        manager, start = self.manager(em), self.object(number)
        nodes, images, new = self.waves("MERGE", manager, start), {}, []
        for node in nodes:
            images[node] = self.image(events, manager, node, new)
        for node in nodes:
            if images[node] is node:
                self.lead_to_images(node, images)
            else:
                self.copy(events, manager, node, images)
        for live in new:
            self.fire(events, "PrePersist", live)
        return Number(images[start].number)

    # -- images

    def image(self, events: Events, manager: Manager, node: Live, new: list[Live]) -> Live:
        """What the manager manages in the place of an object; a new one is added to these."""
        if node.is_managed(manager):
            return node
        if node.held is manager:
            raise Refused("IllegalArgument", "state")
        found = self.found_image(events, manager, node)
        if found is None:
            if node.entity.version and node.values[node.entity.version["name"]] is not None:
                raise Refused("OptimisticLock")
            found = self.new_image(manager, node)
            new.append(found)
        if found.entity is not node.entity:
            raise Refused("IllegalArgument", "type")
        return found

    def found_image(self, events: Events, manager: Manager, node: Live) -> Live | None:
        """The manager's instance of the object's identity, which is loaded where a row stands; None
        where none does, or the key is not whole."""
        identity = node.identity()
        if None in identity[1]:
            return None
        live = self.instance(manager, identity)
        if live and live.is_removed:
            raise Refused("IllegalArgument", "state")
        return live or (
            self.loaded(events, manager, identity) if identity in self.view(manager) else None
        )

    def new_image(self, manager: Manager, node: Live) -> Live:
        """A new object of the class, with the key of the object, or with one that is generated."""
        live = self.made(node.entity)
        if not live.entity.generated:
            live.values.update(zip(live.entity.key, node.key()))
        self.give_number(live, self.number_for(live))
        self.enter(manager, live)
        return live

    # -- copies

    def copy(self, events: Events, manager: Manager, node: Live, images: dict[Live, Live]) -> None:
        """The values of an object and what it leads to, as far as it was read, become those of its
        image."""
        image, version = images[node], node.entity.version
        if version and node.values[version["name"]] not in (None, image.values[version["name"]]):
            raise Refused("OptimisticLock")
        image.values.update(node.attributes())
        for relation in node.entity.relations.values():
            if node.is_unread(relation):
                continue
            found = [
                self.counterpart(events, manager, other, images) for other in node.read_of(relation)
            ]
            if relation.is_many and image.is_unread(relation):
                image.known = {
                    **image.known,
                    relation.name: frozenset(
                        members(self.view(manager), image.identity(), relation)
                    ),
                }
            image.links[relation.name] = found if relation.is_many else found[0] if found else None

    def counterpart(
        self, events: Events, manager: Manager, other: Live, images: dict[Live, Live]
    ) -> Live:
        """What the image of an object leads to where the object leads to this other one."""
        if other in images:
            return images[other]
        if other.held is manager:
            return other
        identity = other.identity()
        live = self.instance(manager, identity)
        if live is None and (None in identity[1] or identity not in self.view(manager)):
            raise Refused("IllegalState", "reference")
        return live or self.loaded(events, manager, identity)

    def lead_to_images(self, live: Live, images: dict[Live, Live]) -> None:
        """What a managed object leads to along the cascades is replaced by the images."""
        for relation in live.entity.relations.values():
            if relation.cascades("MERGE") and not live.is_unread(relation):
                found = [images.get(other, other) for other in live.read_of(relation)]
                live.links[relation.name] = (
                    found if relation.is_many else found[0] if found else None
                )
