"""The streams over which two programs stand side by side."""
from lib.messages import clock, message, on_version, registered
from lib.numbers import CARRIERS, next_door, opening, opening_of_two, port, port_of_two, ported, ported_of_two, query, to_the_end
from lib.pool import rows

# past every window of the examples
LATER = 100_000


def queries(numbers, count):
    """Queries of ported numbers."""
    yield from ported(numbers)
    for turn in range(count):
        yield query(turn, numbers)


def active(count):
    """Ports between two carriers, and then a registration that is answered with all of them."""
    yield from ported_of_two(count)
    yield registered("ZZZZ")


def jump(count):
    """Broadcasts whose windows end in one jump, which a registration settles."""
    yield from opening_of_two(count)
    for place in range(count):
        yield from port_of_two(place).sent()
    yield clock(LATER)
    yield registered("ZZZZ")


def conflict(place):
    """A port of a later day, put in conflict and taken out of it."""
    it = next_door(place)
    yield it.old_create(LATER)
    body = f'{{"due":{LATER},{it.parties()},"lrn":"{it.lrn}"}}'
    yield message(it.new, "/subscriptionVersionNewSP-Create", body)
    yield on_version(it.old, "Conflict", it.version)
    yield on_version(it.old, "RemoveFromConflict", it.version)


def mix(numbers, count):
    """Nine queries in ten messages, the tenth one of a port's or of a conflict's, by turns."""
    yield from ported(numbers)
    turn = 0
    for place in range(numbers, numbers + count):
        for command in port(place).whole() if place % 2 else conflict(place):
            yield from (query(turn + more, numbers) for more in range(9))
            yield command
            turn += 9


def pooled(blocks):
    """Blocks from donation to holder, with queries of their numbers."""
    return (message for message, _ in rows(blocks))


def lagging(count):
    """Ports that one carrier leaves pending. It then fetches and acknowledges them."""
    late = CARRIERS[3]
    yield from opening()
    for place in range(count):
        yield from port(place).whole([carrier for carrier in CARRIERS if carrier != late])
    yield from to_the_end(late, count)


def streams(divisor):
    """The name and the messages of each stream, cut to a part of its size."""
    def part(count):
        return max(1, count // divisor)

    yield "ports: 100,000 among ten carriers", ported(part(100_000))
    yield "queries of 1,000 numbers", queries(1_000, part(300_000))
    yield "queries of 100,000 numbers", queries(part(100_000), part(1_000_000))
    yield "400,000 ports, then a registration", active(part(400_000))
    yield "400,000 windows that end in one jump", jump(part(400_000))
    yield "nine queries in ten", mix(part(10_000), part(12_000))
    yield "1,000 pooled blocks", pooled(part(1_000))
    yield "a carrier 100,000 downloads behind", lagging(part(100_000))
