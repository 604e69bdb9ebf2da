"""In what loads are told: flits, bytes of flits, bytes of payload, or packets."""
from collections.abc import Sequence
from dataclasses import dataclass

from .errors import Refused

FLITS, BYTES, PAYLOAD, PACKETS = "flits", "bytes", "payload", "packets"
# What stands along an axis.
NAMES = {FLITS: "flits", BYTES: "bytes", PAYLOAD: "bytes of payload", PACKETS: "packets"}


@dataclass(frozen=True)
class Unit:
    """In what loads are told: what a packet counts for. A flit has so many bytes, where this is
    said; packets of some classes have the payload of one of several sizes, all alike."""

    name: str = FLITS
    flit_bytes: int = 1
    sizes: tuple[int, ...] = ()
    classes: tuple[int, ...] = ()

    def worth(self, message_class: int, length: int) -> float:
        """What a packet of a class and a length counts for. The flits of one whose payload is not
        known are full."""
        if self.name == FLITS:
            return length
        if self.name == PACKETS:
            return 1
        if self.name == PAYLOAD and message_class in self.classes:
            sizes = [size for size in self.sizes if flits_of(size, self.flit_bytes) == length]
            return sum(sizes) / len(sizes) if sizes else length * self.flit_bytes
        return length * self.flit_bytes

    def of_a_flit(self, message_class: int, lengths: Sequence[int]) -> float:
        """What a flit counts for on average, of packets of a class that have one of these lengths,
        all alike."""
        return sum(self.worth(message_class, length) for length in lengths) / sum(lengths)


def flits_of(size: int, flit_bytes: int) -> int:
    """How many flits a payload of so many bytes takes, one at least."""
    return max(1, -(-size // flit_bytes))


def checked(unit: str) -> str:
    """The name of a unit."""
    if unit not in NAMES:
        raise Refused(f"'unit' is one of {', '.join(NAMES)}, not '{unit}'")
    return unit
