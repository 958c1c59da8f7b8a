#!/usr/bin/env python3
"""Makes messages to measure with: `bench/messages.py KIND MIB OUT` writes one to the file OUT.

A message depends on its kind and size alone, since each is drawn from a fixed seed. The kinds are:

- samples: samples with values, attributes, times and links over shared stacks of 10 to 39 locations, with functions, mappings
  and strings. An eighth of each table is unused, and some entries are duplicates. 30 MiB hold more than 100,000 strings and as
  many locations.
- types-20 and types-80: profiles with types, times and identifiers but without samples. Their types refer to a string table,
  which is 20 or 80 percent of the message. A quarter of the strings is unused, and some are duplicates.
- attributes: four fifths of the bytes are attributes of resources and scopes: texts, integers, and lists in lists.
- service: one profile of a large service: 10,000 functions, 16,000 locations, 4,000 stacks of 20 to 60 locations, and 200,000
  samples with one or two attributes and a time each, of which a tenth has a link. It has one size, 6.9 MiB.

A string has 10 to 79 bytes.

`write_run` writes several messages of a kind, such as agents of one service send, which share strings and stacks. Each table of
such a message begins with the same entries in all of them, about half of it, and they refer to each other alone. The others are
drawn for one message, and refer to both. The records are drawn for one message, but resources and scopes have the same names.
"""

import random
import sys
from dataclasses import dataclass

MIB = 1 << 20
TEXT_LEN = (10, 80)


def varint(number):
    out = bytearray()
    while number >= 128:
        out.append(number % 128 + 128)
        number //= 128
    out.append(number)
    return bytes(out)


def number_field(field, value):
    return varint(field * 8) + varint(value)


def eight_bytes_field(field, value):
    return varint(field * 8 + 1) + value


def long_field(field, value):
    return varint(field * 8 + 2) + varint(len(value)) + value


def packed_field(field, numbers):
    return long_field(field, b"".join(map(varint, numbers)))


def repeated_field(field, values):
    return b"".join(long_field(field, value) for value in values)


def distinct_text(draw, number):
    text = b"%x-%x" % (draw.getrandbits(40), number)
    return text + b"x" * (draw.randrange(*TEXT_LEN) - len(text))


def with_duplicates(draw, entries, share):
    """These entries, of which about this share is duplicated."""
    return [entry for entry in entries for _ in range(2 if draw.random() < share else 1)]


@dataclass(frozen=True)
class Plan:
    """How many entries the tables of a message have, and how they and its samples refer to each other. A range of counts is
    given as the arguments of `randrange`."""

    strings: int
    links: int
    attributes: int
    mappings: int
    functions: int
    locations: int
    stacks: int
    stack_locations: tuple
    sample_attributes: tuple
    linked_samples: float
    duplicates: float
    used: float


SERVICE = Plan(
    strings=23_000,
    links=5_000,
    attributes=1_000,
    mappings=50,
    functions=10_000,
    locations=16_000,
    stacks=4_000,
    stack_locations=(20, 61),
    sample_attributes=(1, 3),
    linked_samples=0.1,
    duplicates=0.0,
    used=1.0,
)


def samples_plan(size):
    def count(per_mib):
        return max(5, int(per_mib * size / MIB))

    return Plan(
        strings=count(5000),
        links=count(50),
        attributes=200,
        mappings=30,
        functions=count(3000),
        locations=count(4000),
        stacks=count(2500),
        stack_locations=(10, 40),
        sample_attributes=(1, 4),
        linked_samples=0.3,
        duplicates=0.05,
        used=7 / 8,
    )


class Table:
    """A table of the dictionary. `entries` are those after the zero entry, which `common` begins; indexes are drawn from the first
    of them."""

    def __init__(self, draw, plan, field, count, entry, common=()):
        self.draw, self.field = draw, field
        self.entries = [*common, *with_duplicates(draw, [entry(number) for number in range(count)], plan.duplicates)]
        self.used = max(1, int(len(self.entries) * plan.used))

    def index(self):
        return 1 + self.draw.randrange(self.used)

    def indexes(self, counts):
        return [self.index() for _ in range(self.draw.randrange(*counts))]

    def written(self):
        return repeated_field(self.field, [b"", *self.entries])


class Tables:
    """The tables of a message with samples. They begin with the entries of `common`, where that is given."""

    def __init__(self, draw, plan, common=None):
        def table(field, count, entry):
            return Table(draw, plan, field, count, entry, common.entries[field] if common else ())

        self.plan = plan
        self.strings = table(5, plan.strings, lambda number: distinct_text(draw, number))
        self.links = table(4, plan.links, lambda _: long_field(1, draw.randbytes(16)) + long_field(2, draw.randbytes(8)))
        self.attributes = table(6, plan.attributes, lambda number: self.attribute(draw, number))
        self.mappings = table(1, plan.mappings, lambda _: self.mapping(draw))
        self.functions = table(3, plan.functions, lambda _: self.function(draw))
        self.locations = table(2, plan.locations, lambda _: self.location(draw))
        self.stacks = table(7, plan.stacks, lambda _: packed_field(1, self.locations.indexes(plan.stack_locations)))
        self.all = (self.mappings, self.locations, self.functions, self.links, self.strings, self.attributes, self.stacks)
        self.entries = {table.field: table.entries for table in self.all}

    def attribute(self, draw, number):
        value = long_field(1, b"%x" % draw.getrandbits(60)) if number % 2 else number_field(3, draw.getrandbits(30))
        return number_field(1, self.strings.index()) + long_field(2, value)

    def mapping(self, draw):
        start = draw.getrandbits(40)
        return number_field(1, start) + number_field(2, start + draw.getrandbits(20)) + number_field(4, self.strings.index())

    def function(self, draw):
        names = b"".join(number_field(field, self.strings.index()) for field in (1, 2, 3))
        return names + number_field(4, draw.randrange(5000))

    def location(self, draw):
        lines = [number_field(1, self.functions.index()) + number_field(2, draw.randrange(5000)) for _ in range(draw.choice((1, 1, 2)))]
        head = number_field(1, self.mappings.index()) + number_field(2, draw.getrandbits(36))
        return head + repeated_field(3, lines)

    def dictionary(self):
        return long_field(2, b"".join(table.written() for table in self.all))


def sample(draw, tables):
    plan = tables.plan
    return b"".join(
        [
            number_field(1, tables.stacks.index()),
            packed_field(2, [draw.randrange(1, 10**7)]),
            packed_field(3, tables.attributes.indexes(plan.sample_attributes)),
            number_field(4, tables.links.index()) if draw.random() < plan.linked_samples else b"",
            long_field(5, draw.randbytes(8)),
        ]
    )


def profile(draw, string, samples, attributes):
    """A profile with these samples and attributes; `string` draws the index of a string."""

    def value_type():
        return number_field(1, string()) + number_field(2, string())

    return b"".join(
        [
            long_field(1, value_type()),
            repeated_field(2, samples),
            eight_bytes_field(3, draw.randbytes(8)),
            number_field(4, draw.randrange(1, 10**10)),
            long_field(5, value_type()),
            number_field(6, draw.randrange(1, 10**7)),
            long_field(7, draw.randbytes(16)),
            packed_field(11, attributes) if attributes else b"",
        ]
    )


def sampled_scope(draw, tables, name, profiles, samples):
    """A scope record with this name, with so many profiles of so many samples each."""
    head = long_field(1, name) + long_field(2, b"1.2.3")
    drawn = [
        profile(draw, tables.strings.index, [sample(draw, tables) for _ in range(samples)], tables.attributes.indexes((1, 3)))
        for _ in range(profiles)
    ]
    return long_field(1, head) + repeated_field(2, drawn)


def resource_record(service, scopes):
    """A field of the message: the resource with this service name, and these scope records."""
    name = long_field(1, b"service.name") + long_field(2, long_field(1, service))
    return long_field(1, long_field(1, long_field(1, name)) + repeated_field(2, scopes))


def run_draws(size, count):
    """What is drawn from for each of so many messages of this size."""
    return (random.Random(f"{size} {number}") for number in range(count))


def sampled_message(draw, tables, size):
    """Resource records of two scopes, with four profiles each and 250 samples in each profile."""
    dictionary = tables.dictionary()
    records, total = [], len(dictionary)
    while total < size:
        scopes = [sampled_scope(draw, tables, name, profiles=4, samples=250) for name in (b"scope.one", b"scope.two")]
        records.append(resource_record(b"service-%d" % len(records), scopes))
        total += len(records[-1])
    return b"".join(records) + dictionary


def samples(size):
    draw = random.Random(size)
    return sampled_message(draw, Tables(draw, samples_plan(size)), size)


def samples_run(size, count):
    half = samples_plan(size / 2)
    common = Tables(random.Random(size), half)
    for draw in run_draws(size, count):
        yield sampled_message(draw, Tables(draw, half, common), size)


def service(_size):
    draw = random.Random(0)
    tables = Tables(draw, SERVICE)
    scope = sampled_scope(draw, tables, b"profiler", profiles=1, samples=200_000)
    return resource_record(b"service", [scope]) + tables.dictionary()


def nested_lists(draw, levels):
    """A list of three values, of which one is such a list with a level less; the innermost holds integers alone."""
    elements = [number_field(3, draw.randrange(10**6)) for _ in range(3)]
    if levels > 1:
        elements[1] = nested_lists(draw, levels - 1)
    return long_field(5, repeated_field(1, elements))


def attribute(draw):
    kind = draw.randrange(3)
    if kind == 0:
        value = long_field(1, b"x" * draw.randrange(5, 60))
    elif kind == 1:
        value = number_field(3, draw.randrange(10**9))
    else:
        value = nested_lists(draw, draw.randrange(1, 9))
    return long_field(1, b"attribute.%d" % draw.randrange(10**6)) + long_field(2, value)


def attribute_records(draw, size):
    """Resource records of about `size` bytes, each with ten attributes of its resource and ten of its scope."""
    records, total = [], 0
    while total < size:
        resource = b"".join(long_field(1, attribute(draw)) for _ in range(10))
        scope = long_field(1, b"scope") + b"".join(long_field(3, attribute(draw)) for _ in range(10))
        records.append(long_field(1, long_field(1, resource) + long_field(2, long_field(1, scope))))
        total += len(records[-1])
    return b"".join(records)


def strings_of_size(draw, size):
    texts, total = [], 0
    while total < size:
        texts += with_duplicates(draw, [distinct_text(draw, len(texts))], 0.05)
        total += len(texts[-1]) + 2
    return texts


def typed_message(draw, texts, size):
    """Profiles of about `size` bytes, a thousand in a scope, over these strings, of which the last quarter is unused."""
    used = max(1, len(texts) * 3 // 4)
    profiles, total = [], 0
    while total < size:
        profiles.append(long_field(2, profile(draw, lambda: draw.randrange(used), [], [])))
        total += len(profiles[-1])
    scopes = [b"".join(profiles[start : start + 1000]) for start in range(0, len(profiles), 1000)]
    return long_field(1, repeated_field(2, scopes)) + long_field(2, repeated_field(5, [b"", *texts]))


def types(size, strings, attributes=0.0):
    """The share `attributes` of the bytes are those of resources and scopes, and of the others the share `strings` is the string
    table. The rest are profiles."""
    draw = random.Random(size)
    records = attribute_records(draw, size * attributes)
    size = int(size * (1 - attributes))
    return records + typed_message(draw, strings_of_size(draw, size * strings), size * (1 - strings))


def types_run(size, count, strings):
    common = strings_of_size(random.Random(size), size * strings / 2)
    for draw in run_draws(size, count):
        texts = [*common, *strings_of_size(draw, size * strings / 2)]
        yield typed_message(draw, texts, size * (1 - strings))


@dataclass(frozen=True)
class Kind:
    message: callable
    sizes: tuple = (1, 8, 30)


KINDS = {
    "samples": Kind(samples),
    "types-20": Kind(lambda size: types(size, strings=0.2)),
    "types-80": Kind(lambda size: types(size, strings=0.8)),
    "attributes": Kind(lambda size: types(size, strings=0.5, attributes=0.8)),
    "service": Kind(service, sizes=(6.9,)),
}


# The kinds of which there are runs: each makes so many messages of a size.
RUNS = {
    "samples": samples_run,
    "types-20": lambda size, count: types_run(size, count, strings=0.2),
}


def write_message(kind, mib, path):
    with open(path, "wb") as file:
        file.write(KINDS[kind].message(int(mib * MIB)))


def write_run(kind, mib, paths):
    """Writes a message to each of these files, which have about `mib` MiB in all."""
    for path, message in zip(paths, RUNS[kind](int(mib * MIB / len(paths)), len(paths))):
        with open(path, "wb") as file:
            file.write(message)


if __name__ == "__main__":
    write_message(sys.argv[1], float(sys.argv[2]), sys.argv[3])
