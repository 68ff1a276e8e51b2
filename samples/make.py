#!/usr/bin/env python3
"""Makes the sample streams: writes each file beside this script. `files()` gives their names and bytes."""
from pathlib import Path

STREAM, CALL, PARAMETER, ER_GROUP, TEMPLATE, TEMPORARY_KEY, TEMPLATE_KEY, FIELD = 1, 2, 3, 4, 5, 6, 7, 8
RELATION, ORDERED_RELATION, ENTITY_KEY, RELATION_KEY = 9, 10, 11, 12
NONE, CREATE = 0, 1


class Unit(bytes):
    """A unit's bytes. `requests` has the id, the action and the own data of it and of each unit in it."""


def unit(id, action, *parts, length=None):
    """A unit: mark, length, action, id, and then its own data and the units in it. Its length is that of all these bytes."""
    data = b"".join(parts)
    length = 6 + len(data) if length is None else length
    made = Unit(b"\xCD\xF1" + length.to_bytes(2, "big") + bytes([action, id]) + data)
    own = b"".join(part for part in parts if not isinstance(part, Unit))
    made.requests = [(id, action, own), *(request for part in parts if isinstance(part, Unit) for request in part.requests)]
    return made


def name(text):
    return bytes([len(text)]) + text.encode("ascii")


def number(n):
    return n.to_bytes(4, "big")


def key(k):
    """A temporary key, which is a number, or a template key, which is any text. A person has keys of one kind."""
    return unit(TEMPORARY_KEY, NONE, number(k)) if isinstance(k, int) else unit(TEMPLATE_KEY, NONE, k.encode())


def field(title, text):
    return unit(FIELD, CREATE, name(title), text.encode())


def field_by_letters(title, text):
    """The old fault: the length counts the letters of the text, and Å, É and Ö take two bytes each."""
    return unit(FIELD, CREATE, name(title), text.encode(), length=6 + len(name(title)) + len(text))


def person(k, surname, given, field=field):
    """`k` is the person's key, or a list of keys."""
    keys = k if isinstance(k, list) else [k]
    return unit(TEMPLATE, CREATE, name("PERSON"), *map(key, keys), field("SURNAME", surname), field("GIVEN", given))


def entity(k):
    """A person, named by a key."""
    return unit(ENTITY_KEY, NONE, name("PERSON"), key(k))


def marriage(n, one, other):
    return unit(RELATION, CREATE, number(n), entity(one), entity(other))


def birth(n, position, marriage, child):
    """The child of a marriage, and which of its children it is."""
    return unit(ORDERED_RELATION, CREATE, number(n), number(position), unit(RELATION_KEY, NONE, number(marriage)), entity(child))


PEOPLE = [
    (1, "Åström", "Karin"), ("P-1874", "Öberg", "Nils"), (2, "Åström", "Elsa"), ("P-1903", "Öberg", "Sven"),
    ("P-1899", "Édouard", "Jean"), (3, "Édouard", "Märta"),
]
RELATIONS = [
    marriage(1, 1, "P-1874"), birth(11, 1, 1, 2), birth(12, 2, 1, "P-1903"),
    marriage(2, 2, "P-1899"), birth(21, 1, 2, 3),
]


def group(field=field, people=PEOPLE, relations=RELATIONS):
    return unit(ER_GROUP, NONE, *(person(*p, field=field) for p in people), *relations)


def call():
    parameters = (("SOURCE", "Parish book of Åmål"), ("MODE", "ADD"))
    return unit(CALL, NONE, name("MERGE_TREE"), *(unit(PARAMETER, NONE, name(n), v.encode()) for n, v in parameters))


def files():
    family, family_call = group(), unit(STREAM, NONE, call(), group())
    # The old fault: a surname grows by five bytes, and the length of its field alone is corrected.
    married = family.replace(field("SURNAME", "Öberg"), field("SURNAME", "Öberg-Lind"), 1)
    # As streams once could be: a stored person has kept the temporary key that he had before.
    mixed = [([4, k], *names) if k == "P-1874" else (k, *names) for k, *names in PEOPLE]
    alone = unit(ER_GROUP, NONE, person(*PEOPLE[0]))
    return {
        "family.cdf": family,
        "family-call.cdf": family_call,
        "family-damaged.cdf": family[:-9],  # the last nine bytes did not arrive
        "family-call-damaged.cdf": family_call.replace(b"\xCD\xF1\x00\x0A\x00\x0C", b"\x4D\x71\x00\x0A\x00\x0C", 1),  # seven bits of a mark
        "letters-counted.cdf": group(field_by_letters),
        "inner-length-only.cdf": married,
        "second-group.cdf": unit(STREAM, NONE, call(), group(), group()),
        "mixed-keys.cdf": group(people=mixed),
        "rescue-person.cdf": family[:100] + family[103:],  # three bytes of the second person did not arrive
        "rescue-nothing.cdf": alone[:40] + alone[41:],  # one byte of the only person did not arrive
        "rescue-short.cdf": family[:5],
        # Two devices gave the same temporary key: the last person has the third one's, and so has her birth.
        "resolve-doubled.cdf": group(people=[*PEOPLE[:-1], (2, "Édouard", "Märta")], relations=[*RELATIONS[:-1], birth(21, 1, 2, 2)]),
        "resolve-missing.cdf": group(people=PEOPLE[:-1]),  # the child of the last birth was not sent
        "resolve-many.cdf": unit(ER_GROUP, NONE, *(unit(TEMPLATE, CREATE, name("PERSON"), key(k)) for k in range(1, 258)), marriage(1, 1, 257)),
    }


if __name__ == "__main__":
    for title, data in files().items():
        (Path(__file__).parent / title).write_bytes(data)
