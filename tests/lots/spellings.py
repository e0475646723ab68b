"""The ways in which the generated tables and descriptions write aliquot parts and lists."""

from places import spelled

#: How the parts of a lot, or of a section, may be separated.
SEPARATORS = (", ", ", ", ", ", " and ", ", and ")

#: How the steps of an aliquot part may be written. The first way is the usual one.
_SPELLINGS = (
    spelled,
    lambda steps: spelled(steps).lower(),
    lambda steps: spelled(steps).replace("1/2", "½").replace("1/4", "¼"),
    lambda steps: " of the ".join(spelled((step,)) for step in steps),
    lambda steps: " ".join(spelled((step,)) for step in steps),
)


def aliquot(random, steps):
    """An aliquot part, written in some way."""
    return spelled(steps) if random.random() < 0.7 else random.choice(_SPELLINGS)(steps)


def listed(random, entries):
    """A list of entries."""
    text = entries[0]
    for entry in entries[1:]:
        text += random.choice(SEPARATORS) + entry
    return text
