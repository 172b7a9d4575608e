"""What the annotation of an attribute says, also where it is a text, and in the forms of later
versions of Python than the one that runs."""

from __future__ import annotations

import ast
import builtins
import sys
import typing
from dataclasses import dataclass
from typing import Any, Dict, ForwardRef, Mapping, Tuple, Union


class Unread(ValueError):
    """An annotation that can't be read; the text says why."""


@dataclass(frozen=True)
class Annotated:
    """A type, whether None is of it too, and what stands in its brackets, as it stands there."""

    kind: Any
    is_optional: bool = False
    items: Tuple[Any, ...] = ()


_LISTS = {list: list, dict: dict, typing.List: list, typing.Dict: dict}


def own_annotations(kind: type) -> Dict[str, Any]:
    """The annotations that a class has itself, in their order."""
    if sys.version_info >= (3, 10):
        import inspect

        return dict(inspect.get_annotations(kind))
    return dict(kind.__dict__.get("__annotations__", {}))


class Scope:
    """The names that an annotation of a class may use."""

    def __init__(self, owner: type, known: Mapping[str, type]) -> None:
        """With the entities that are known beside those of its module."""
        self._owner, self._known = owner, known

    def read(self, annotation: Any) -> Annotated:
        """What an annotation says; else it is `Unread`."""
        if isinstance(annotation, ForwardRef):
            annotation = annotation.__forward_arg__
        if isinstance(annotation, str):
            try:
                return self._node(ast.parse(annotation.strip(), mode="eval").body)
            except SyntaxError:
                raise Unread(f"has the annotation {annotation!r}, which is none") from None
        if annotation is None or annotation is type(None):
            return Annotated(type(None))
        origin, items = typing.get_origin(annotation), typing.get_args(annotation)
        if origin is Union or type(annotation).__name__ == "UnionType":
            return self._union([self.read(each) for each in items])
        if origin is not None:
            return Annotated(_LISTS.get(origin, origin), items=items)
        return Annotated(_LISTS.get(annotation, annotation))

    def _union(self, parts: "list[Annotated]") -> Annotated:
        own = [part for part in parts if part.kind is not type(None)]
        if len(own) != 1:
            raise Unread("is of several types: an attribute has one, or one and None")
        is_optional = len(own) < len(parts) or own[0].is_optional
        return Annotated(own[0].kind, is_optional, own[0].items)

    def _node(self, node: ast.expr) -> Annotated:
        if isinstance(node, ast.BinOp) and isinstance(node.op, ast.BitOr):
            return self._union([self._node(node.left), self._node(node.right)])
        if isinstance(node, ast.Constant) and (node.value is None or isinstance(node.value, str)):
            return self.read(node.value)
        if isinstance(node, ast.Subscript):
            return self._subscript(node)
        found = self._named(node)
        # A name may stand for a whole annotation, as an alias does.
        return self.read(found) if not isinstance(found, str) else Annotated(found)

    def _subscript(self, node: ast.Subscript) -> Annotated:
        base: Any = self._named(node.value)
        inner: Any = node.slice
        if type(inner).__name__ == "Index":  # Python 3.8 and its like.
            inner = inner.value
        items = inner.elts if isinstance(inner, ast.Tuple) else [inner]
        if base is typing.Optional:
            return self._union([self._node(items[0]), Annotated(type(None))])
        if base is Union:
            return self._union([self._node(each) for each in items])
        return Annotated(_LISTS.get(base, base), items=tuple(map(ast.unparse, items)))

    def _named(self, node: ast.expr) -> Any:
        if isinstance(node, ast.Attribute):
            found = self._named(node.value)
            if not hasattr(found, node.attr):
                raise Unread(f"has the annotation {ast.unparse(node)}, which isn't known")
            return getattr(found, node.attr)
        if not isinstance(node, ast.Name):
            raise Unread(f"has the annotation {ast.unparse(node)}, which is none")
        module = vars(sys.modules.get(self._owner.__module__, builtins))
        for names in (self._known, module, vars(builtins), vars(self._owner)):
            if node.id in names:
                return names[node.id]
        raise Unread(
            f"has the annotation {node.id}, which isn't known in {self._owner.__module__}: import "
            "it there, or hand its class to karzhoul.open too"
        )
