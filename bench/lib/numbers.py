"""Carriers, and the number, the providers and the version at each place: among ten carriers, and between two."""
from typing import NamedTuple

from lib.messages import acknowledgement, message, on_version, opened, question, registered, routed, said

CARRIERS = [letter * 4 for letter in "ABCDEFGHIJ"]
TWO = CARRIERS[:2]
# the numbers of a code
LINES = 10_000
# what stands in the answer to a query of a ported number, and in no other
ROUTED = b";npdi;rn=+120244"


def lrn_of(carrier):
    return f"20244{CARRIERS.index(carrier)}0000"


class Port(NamedTuple):
    """A number that goes from one provider to another, by which routing, and as which version."""
    tn: str
    old: str
    new: str
    lrn: str
    version: int

    def parties(self):
        return f'"new":"{self.new}","old":"{self.old}","tn":"{self.tn}"'

    def new_create(self, due=0):
        body = f'{{"due":{due},"lrn":"{self.lrn}",{self.parties()}}}'
        return message(self.new, "/subscriptionVersionNewSP-Create", body)

    def old_create(self, due=0):
        body = f'{{"authorized":true,"due":{due},{self.parties()}}}'
        return message(self.old, "/subscriptionVersionOldSP-Create", body)

    def activation(self):
        return on_version(self.new, "Activate", self.version)

    def sent(self, due=0):
        """Both creates and the activation."""
        return [self.new_create(due), self.old_create(due), self.activation()]

    def acknowledged(self, carriers=CARRIERS, attempt=1):
        return [acknowledgement(carrier, self.version, attempt) for carrier in carriers]

    def whole(self, carriers=CARRIERS):
        """All messages of the port."""
        return self.sent() + self.acknowledged(carriers)


def providers(carriers):
    """Carriers with a routing number each."""
    for carrier in carriers:
        yield registered(carrier)
        yield routed(carrier, lrn_of(carrier))


def providers_told(*lrns_of):
    """The ten carriers with as many routing numbers each, and what is answered to that."""
    for carrier in CARRIERS:
        yield said("NPAC", "/carriers", {"spid": carrier}, {"rows": [], "spid": carrier})
        for lrn in (of_carrier(carrier) for of_carrier in lrns_of):
            yield said(carrier, "/lrns", {"lrn": lrn}, {"lrn": lrn, "spid": carrier})


# ---- among ten carriers

def opening():
    """Ten carriers with a routing number each, and ten codes for each of them."""
    yield from providers(CARRIERS)
    for code in range(100):
        yield opened(f"202{200 + code}", CARRIERS[code % 10])


def port(place, codes=100):
    """The port at a place, where the numbers go over so many codes."""
    line, code = divmod(place, codes)
    new = CARRIERS[(code + 1 + line % 9) % 10]
    return Port(f"202{200 + code}{line:04}", CARRIERS[code % 10], new, lrn_of(new), place + 1)


def next_door(place):
    """The same, but to the carrier behind the old provider."""
    new = CARRIERS[(place + 1) % 10]
    return port(place)._replace(new=new, lrn=lrn_of(new))


def ported(count):
    """So many ports, each acknowledged by all."""
    yield from opening()
    for place in range(count):
        yield from port(place).whole()


def to_the_end(caller, count, at_once=100):
    """Fetches and acknowledgements by turns of so many downloads, and a last fetch of nothing."""
    fetch = question(caller, f"/downloads/{at_once}")
    for first in range(0, count, at_once):
        yield fetch
        for version in range(first + 1, min(first + at_once, count) + 1):
            yield acknowledgement(caller, version)
    yield fetch


def query(turn, ports):
    """Queries of the ported numbers by turns, in an order that goes over all of them."""
    uri = f"tel:+1{port(turn * 7919 % ports).tn}"
    return message(CARRIERS[turn % 10], "/query", f'{{"uri":"{uri}"}}')


# ---- between two carriers

def opening_of_two(numbers):
    """Two carriers, and the codes of so many numbers, which the first holds."""
    yield from providers(TWO)
    for code in range((numbers + LINES - 1) // LINES):
        yield opened(f"303{200 + code}", TWO[0])


def port_of_two(place):
    """The port at a place, from the first carrier to the second."""
    code, line = divmod(place, LINES)
    return Port(f"303{200 + code}{line:04}", *TWO, lrn_of(TWO[1]), place + 1)


def ported_of_two(count):
    """So many ports, each acknowledged by both."""
    yield from opening_of_two(count)
    for place in range(count):
        yield from port_of_two(place).whole(TWO)
