"""Pooled blocks: each is donated with a hundred lines in use, assigned and acknowledged, and then queried."""
from lib.messages import acknowledgement, answer, said, text_of
from lib.numbers import CARRIERS, lrn_of, providers_told

BLOCKS_OF_A_CODE = 10
CODES_OF_AN_AREA = 800
USED = 100
QUERIED = 10


class Block:
    """The block at a place: its code, donor and holder, and the lines in use, which are all that end with one digit."""

    def __init__(self, place):
        code, self.digit = divmod(place, BLOCKS_OF_A_CODE)
        self.code = f"{303 + code // CODES_OF_AN_AREA}{200 + code % CODES_OF_AN_AREA}"
        self.text = f"{self.code}{self.digit}"
        self.donor = CARRIERS[code % len(CARRIERS)]
        self.holder = CARRIERS[(code + 1 + self.digit % 9) % len(CARRIERS)]
        self.used = [f"{line:03}" for line in range(self.digit, 1000, 10)]
        self.first_id = place * (USED + 1) + 1

    def version(self, version, subject, new, status):
        """What is answered to a call on a version of this block or of a number of it."""
        return {
            "attempt": 1, "cic": None, "due": 0, "id": version, "lrn": lrn_of(new), "new": new, "old": self.donor,
            "phase": None, "release": None, "since": 0, "status": status, "subject": subject,
        }

    def acknowledged(self, version, subject, new):
        """Every carrier acknowledges, and with the last one the version is active."""
        told = {it: answer(text_of(self.version(version, subject, new, it))) for it in ("sending", "active")}
        for carrier in CARRIERS:
            yield acknowledgement(carrier, version), told["active" if carrier == CARRIERS[-1] else "sending"]

    def donated(self):
        ids = list(range(self.first_id, self.first_id + USED))
        body = {"block": self.text, "lrn": lrn_of(self.donor), "used": self.used}
        yield said(self.donor, "/blocks/donate", body, {"block": self.text, "ids": ids})
        for version, line in zip(ids, self.used):
            yield from self.acknowledged(version, f"{self.text}{line}", self.donor)

    def assigned(self):
        version = self.first_id + USED
        body = {"block": self.text, "holder": self.holder, "lrn": lrn_of(self.holder)}
        yield said("NPAC", "/blocks/assign", body, self.version(version, self.text, self.holder, "sending"))
        yield from self.acknowledged(version, self.text, self.holder)

    def queried(self):
        """Ten lines in use, which are routed to the donor, and ten others, which are routed to the holder."""
        for turn in range(QUERIED):
            for digit, provider in ((self.digit, self.donor), ((self.digit + 1) % 10, self.holder)):
                uri = f"tel:+1{self.text}{100 * turn + digit:03}"
                yield said(CARRIERS[turn], "/query", {"uri": uri}, {"uri": f"{uri};npdi;rn=+1{lrn_of(provider)}"})


def rows(count):
    """Each message, and its answer."""
    yield from providers_told(lrn_of)
    for place in range(count):
        block = Block(place)
        if block.digit == 0:
            body = {"code": block.code, "spid": block.donor}
            yield said("NPAC", "/codes", body, body)
        yield from block.donated()
        yield from block.assigned()
    for place in range(count):
        yield from Block(place).queried()
