"""The kinds of objects: their first values, and what a part of an operation does to a value.

A counter's value is a number, that of a blob bytes, and that of a directory pairs of a name and a number, by rising
names. An item, which a part that is not refused tells, is a number, bytes or such pairs.
"""
from model.values import (
    BAD_NAME, BLOB, COUNTER, DIR, EXISTS, FULL, LAST_VALUE, MISSING, MOST_CONTENT, MOST_ENTRIES, MOST_NAME, OVER,
    TOO_LONG, UNDER, WRONG_KIND, Items, RefusedPart)

FRESH = {COUNTER: 0, BLOB: b"", DIR: ()}
# The methods that change a value, and the questions that change none, each with the kind that has it.
METHODS = {"add": COUNTER, "take": COUNTER, "put": BLOB, "append": BLOB, "link": DIR, "unlink": DIR}
ASKS = {"read": COUNTER, "cat": BLOB, "find": DIR, "list": DIR}


class Refused(Exception):
    """A part is refused, with the number of the refusal."""


def refuse_where(condition, number):
    if condition:
        raise Refused(number)


def performed(before, body):
    """The values behind an operation and the answer, where `before` has the kind and the value of the object of each
    part. No part sees what another one changed, and where one is refused, all values stay as they are."""
    changed, items = [], []
    for position, (part, (kind, value)) in enumerate(zip(body.parts, before, strict=True)):
        try:
            refuse_where({**METHODS, **ASKS}[part.method] != kind, WRONG_KIND)
            after, item = {COUNTER: count, BLOB: write, DIR: keep}[kind](value, part.method, *part.arguments)
        except Refused as refused:
            return [value for _, value in before], RefusedPart(position, refused.args[0])
        changed.append(after)
        items.append(item)
    return changed, Items(tuple(items))


# ---- each kind: the value behind a part, and the item that it tells; each raises Refused where the part is refused


def count(value, method, amount=0):
    """A part on a counter."""
    changed = {"read": value, "add": value + amount, "take": value - amount}[method]
    refuse_where(changed > LAST_VALUE, OVER)
    refuse_where(changed < 0, UNDER)
    return changed, changed


def write(content, method, piece=b""):
    """A part on a blob."""
    if method == "cat":
        return content, content
    changed = piece if method == "put" else content + piece
    refuse_where(len(changed) > MOST_CONTENT, TOO_LONG)
    return changed, len(changed)


def is_good_name(name):
    """Whether a directory may have an entry with this name."""
    return 0 < len(name) <= MOST_NAME and b"\0" not in name and b"/" not in name and name not in (b".", b"..")


def keep(entries, method, name=b"", number=0):
    """A part on a directory."""
    if method == "list":
        return entries, entries
    found = dict(entries)
    if method == "link":
        refuse_where(not is_good_name(name), BAD_NAME)
        refuse_where(name in found, EXISTS)
        refuse_where(len(found) >= MOST_ENTRIES, FULL)
        found[name] = number
    else:
        refuse_where(name not in found, MISSING)
        if method == "find":
            return entries, found[name]
        del found[name]
    return tuple(sorted(found.items())), len(found)
