"""What a person becomes: known by the name, with a day in the place of a text."""

from datetime import date


def bring_over_Person(old):
    return {"key": old["name"], "born": (date.fromisoformat(old["born"]) - date(1970, 1, 1)).days}
