"""An independent packet reader, for `damaged`. The function `read` decodes a packet, or raises the packet's first
fault.

The tables of fields follow NDN Packet Format 0.3 and NDNLPv2. Where these standards leave a choice,
the tables follow `docs/DECISIONS.md` ("The profile"). The module shares no code with the node's
reader.

`read` checks the octets in this order. The words in parentheses are the faults.

1. There are at most 9,000 octets (TooLong).
2. The outermost element can be read (Tlv). No octets follow it, and it is an Interest, a Data or a link packet
   (BadField).
3. An Interest or a Data has at most 8,800 octets (TooLong).
4. An Interest or a Data begins with a Name, and the Name of an Interest is not empty (NoName). If the first element
   inside the packet cannot be read, the fault is Tlv.
5. The elements inside the outermost element, from left to right: each element can be read (Tlv), is allowed at its
   place (CriticalUnknown, or LpField in a link packet), and has a valid value (mostly BadField; LpField for a PIT
   token; Fragmented for a FragIndex or FragCount that is too large). The elements inside a MetaInfo, a SignatureInfo
   and a Nack are checked in the same way. A missing SignatureType is reported after the last element of the
   SignatureInfo (BadField).
6. No other mandatory field is missing (NoNonce in an Interest, BadField in a Data). In a link
   packet, a Nack needs a Fragment (BadField).
7. In an Interest, the digest of the parameters is valid (DigestMissing, DigestWrong, DigestWithout).

The value of a Fragment is checked by the steps 2 to 7. It must be an Interest or a Data. If the link packet has a Nack,
it must be an Interest. If one of these two conditions is not met, the fault is BadField.
"""

import collections
import hashlib

LONGEST_LINK, LONGEST_PACKET, MOST_COMPONENTS = 9000, 8800, 64
INTEREST, DATA, LINK = 5, 6, 100
NAME, FRAGMENT, PIT_TOKEN, NACK, PARAMETERS = 7, 80, 98, 800, 36
IMPLICIT_DIGEST, PARAMETERS_DIGEST = 1, 2


class Fault(Exception):
    """The octets are not a packet. The message is the FAULT that the node prints after `dropped Malformed`."""


# Numbers and elements.

Element = collections.namedtuple("Element", "kind value start end")


def number(octets, at):
    """Reads the VAR-NUMBER at the offset `at`. Returns the number and the offset after it."""
    if at >= len(octets):
        raise Fault("Tlv Truncated")
    first = octets[at]
    width = {253: 2, 254: 4, 255: 8}.get(first)
    if width is None:
        return first, at + 1
    end = at + 1 + width
    if end > len(octets):
        raise Fault("Tlv Truncated")
    n = int.from_bytes(octets[at + 1 : end], "big")
    if n < {2: 253, 4: 1 << 16, 8: 1 << 32}[width]:
        raise Fault("Tlv NotShortest")
    return n, end


def element(octets, start=0):
    """Reads the element at the offset `start`."""
    kind, at = number(octets, start)
    if kind == 0:
        raise Fault("Tlv TypeZero")
    if kind >= 1 << 32:
        raise Fault("Tlv TypeTooLarge")
    length, at = number(octets, at)
    if at + length > len(octets):
        raise Fault("Tlv Truncated")
    return Element(kind, octets[at : at + length], start, at + length)


def elements(octets):
    """Yields the elements from left to right. Raises the fault of an element only when it reaches this element."""
    at = 0
    while at < len(octets):
        one = element(octets, at)
        yield one
        at = one.end


# Readers for the values of fields. A reader takes the octets of a value, and returns the decoded value or raises Fault.


def anything(value):
    return value


def octets_of(length):
    """Returns a reader that accepts exactly `length` octets."""

    def read(value):
        if len(value) != length:
            raise Fault("BadField")
        return value

    return read


def integer(value):
    """Reads a NonNegativeInteger, which need not be in its shortest form."""
    if len(value) not in (1, 2, 4, 8):
        raise Fault("BadField")
    return int.from_bytes(value, "big")


def components(value):
    """Reads a name, and returns the tuple of its components, each a complete element. The fault is BadField if a
    component is invalid, or if there are more than 64 components."""
    found = []
    try:
        for one in elements(value):
            if len(found) == MOST_COMPONENTS or one.kind > 0xFFFF:
                raise Fault("BadField")
            if one.kind in (IMPLICIT_DIGEST, PARAMETERS_DIGEST) and len(one.value) != 32:
                raise Fault("BadField")
            found.append(value[one.start : one.end])
    except Fault:
        raise Fault("BadField") from None
    return tuple(found)


def locator(value):
    """Reads a KeyLocator. Returns its name, or None if the value is not exactly one valid Name. Never raises Fault."""
    try:
        one = element(value)
        if one.kind == NAME and one.end == len(value):
            return components(one.value)
    except Fault:
        pass
    return None


class Fields:
    """A list of fields in a fixed order, in which each field occurs at most once.

    `table` maps the types of the fields, in this order, to the readers for their values. `after` maps the type of a
    field to the type of the field that must precede it. `needed` has the types of the mandatory fields.

    An element is a field if these two conditions are met: its type is in the table, after the type of the field (if
    any) that was read last; and the field (if any) that must precede it according to `after` has been read. Any other
    element is ignored if its type is in `ignored`, or is even and at least 32. Otherwise the fault is CriticalUnknown.
    """

    def __init__(self, table, after=(), ignored=(), needed=()):
        self.table, self.after, self.ignored, self.needed = table, dict(after), ignored, needed
        self.order = {kind: place for place, kind in enumerate(table)}

    def read(self, octets):
        """Reads fields. Returns two dictionaries, whose keys are the types of the fields that are present. The first
        one has the values of the fields, and the second one has the offsets of their starts and ends. The fault is
        BadField if a mandatory field is missing."""
        found, places, last = {}, {}, -1
        for one in elements(octets):
            if self.comes_next(one.kind, last, found):
                last = self.order[one.kind]
                found[one.kind] = self.table[one.kind](one.value)
                places[one.kind] = (one.start, one.end)
            elif one.kind not in self.ignored and (one.kind < 32 or one.kind % 2 == 1):
                raise Fault("CriticalUnknown")
        if any(kind not in found for kind in self.needed):
            raise Fault("BadField")
        return found, places

    def comes_next(self, kind, last, found):
        """Returns whether an element of the type `kind` is a field. `last` is the table
        index of the field that was read last, or -1 if there is none. `found` has all fields that
        were read."""
        return self.order.get(kind, -1) > last and (kind not in self.after or self.after[kind] in found)

    def value(self, octets):
        """The reader for a field that contains fields. Returns the values of these inner fields, by type."""
        return self.read(octets)[0]


META_INFO = Fields({24: integer, 25: integer, 26: anything}, ignored=range(128, 253))
SIGNATURE_INFO = Fields(
    {27: integer, 28: locator, 38: anything, 40: integer, 42: integer}, ignored=(253,), needed=(27,)
)
OF_INTEREST = Fields(
    {
        NAME: components,
        33: octets_of(0),
        18: octets_of(0),
        30: anything,
        10: octets_of(4),
        12: integer,
        34: octets_of(1),
        PARAMETERS: anything,
        44: SIGNATURE_INFO.value,
        46: anything,
    },
    after={44: PARAMETERS, 46: 44},
)
OF_DATA = Fields({NAME: components, 20: META_INFO.value, 21: anything, 22: SIGNATURE_INFO.value, 23: anything}, needed=(22, 23))
OF_NACK = Fields({801: integer})

# Packets. A name is the tuple of its components, each a complete element.

Signature = collections.namedtuple("Signature", "kind key time number value covered")
Interest = collections.namedtuple("Interest", "name can_be_prefix must_be_fresh nonce lifetime hop_limit_at signature whole")
Data = collections.namedtuple("Data", "name freshness signature whole")
Frame = collections.namedtuple("Frame", "packet token reason")
NO_NACK = None


def kind_of(component):
    """Returns the type of a component."""
    return element(component).kind


def hop_limit(interest):
    """Returns the HopLimit of an Interest, or None if it has none."""
    return None if interest.hop_limit_at is None else interest.whole[interest.hop_limit_at]


def begins_with_name(value, may_be_empty):
    """Raises Fault if the value of a packet does not begin with a Name, or if this Name is empty but `may_be_empty` is
    false."""
    if not value:
        raise Fault("NoName")
    first = element(value)
    if first.kind != NAME or not (first.value or may_be_empty):
        raise Fault("NoName")


def signature_of(info, value, covered):
    """Returns the Signature with the fields `info` of its SignatureInfo, the octets `value` of the
    signature, and the octets `covered` that the signature covers."""
    return Signature(info[27], info.get(28), info.get(40), info.get(42), value, covered)


def read_interest(outer, whole):
    """Decodes an Interest. `outer` is its outermost element, and `whole` has all its octets."""
    begins_with_name(outer.value, False)
    found, places = OF_INTEREST.read(outer.value)
    if 10 not in found:
        raise Fault("NoNonce")
    name = found[NAME]
    digests = [part for part in name if kind_of(part) == PARAMETERS_DIGEST]
    if PARAMETERS in found:
        rest = outer.value[places[PARAMETERS][0] :]
        if not digests:
            raise Fault("DigestMissing")
        if len(digests) > 1 or element(digests[0]).value != hashlib.sha256(rest).digest():
            raise Fault("DigestWrong")
    elif digests:
        raise Fault("DigestWithout")
    signature = None
    if 46 in found:
        # The signature covers the components of the name except the digest, and the octets from the start of the
        # ApplicationParameters to the start of the InterestSignatureValue. If the digest is not the last component,
        # `covered` is None.
        parts = outer.value[places[PARAMETERS][0] : places[46][0]]
        covered = b"".join(name[:-1]) + parts if kind_of(name[-1]) == PARAMETERS_DIGEST else None
        signature = signature_of(found[44], found[46], covered)
    inside = len(whole) - len(outer.value)
    return Interest(
        name, 33 in found, 18 in found, found[10], found.get(12, 4000),
        inside + places[34][1] - 1 if 34 in found else None, signature, whole,
    )


def read_data(outer, whole):
    """Decodes a Data. `outer` is its outermost element, and `whole` has all its octets."""
    begins_with_name(outer.value, True)
    found, places = OF_DATA.read(outer.value)
    covered = outer.value[places[NAME][0] : places[23][0]]
    signature = signature_of(found[22], found[23], covered)
    return Data(found[NAME], found.get(20, {}).get(25, 0), signature, whole)


def packet_of(octets, kinds):
    """Decodes octets that must be exactly one packet of one of the types `kinds`. Returns an Interest or a Data, or the
    outermost element of a link packet."""
    outer = element(octets)
    if outer.end != len(octets) or outer.kind not in kinds:
        raise Fault("BadField")
    if outer.kind == LINK:
        return outer
    if len(octets) > LONGEST_PACKET:
        raise Fault("TooLong")
    return read_interest(outer, octets) if outer.kind == INTEREST else read_data(outer, octets)


def token_value(value):
    """Reads a PIT token, which has 1 to 32 octets."""
    if not 1 <= len(value) <= 32:
        raise Fault("LpField")
    return value


def at_most(limit):
    """Returns a reader for FragIndex or FragCount. A number above the limit means that the Fragment is only a part of a
    packet: the fault is Fragmented."""

    def read(value):
        if integer(value) > limit:
            raise Fault("Fragmented")
        return value

    return read


HEADERS = {81: anything, 82: at_most(0), 83: at_most(1), PIT_TOKEN: token_value, NACK: OF_NACK.value}


def read_link(outer):
    """Decodes a link packet, whose outermost element is `outer`."""
    found, packet = {}, None
    for one in elements(outer.value):
        if packet is not None or one.kind in found:
            raise Fault("LpField")
        if one.kind == FRAGMENT:
            packet = packet_of(one.value, (INTEREST,) if NACK in found else (INTEREST, DATA))
        elif one.kind in HEADERS:
            found[one.kind] = HEADERS[one.kind](one.value)
        elif not (800 <= one.kind <= 959 and one.kind % 4 == 0):
            raise Fault("LpField")
    if packet is None and NACK in found:
        raise Fault("BadField")
    reason = found[NACK].get(801, 0) if NACK in found else NO_NACK
    return Frame(packet, found.get(PIT_TOKEN), reason)


def read(octets):
    """Decodes the octets that arrive on a face. Returns a Frame. Its `packet` is an Interest or a Data, or None for an
    idle link packet. Its `token` is the PIT token or None. Its `reason` is NO_NACK if there is no Nack,
    and otherwise the NackReason, or 0 for a Nack without a NackReason. Raises Fault if the octets are not a packet."""
    if len(octets) > LONGEST_LINK:
        raise Fault("TooLong")
    found = packet_of(octets, (INTEREST, DATA, LINK))
    return read_link(found) if isinstance(found, Element) else Frame(found, None, NO_NACK)


# Names.


def begins(name, prefix):
    """Returns whether `prefix` is a prefix of the name."""
    return name[: len(prefix)] == prefix


def order(name):
    """Returns the sort key of a name. Names that are sorted by these keys are in canonical
    order."""
    parts = (element(part) for part in name)
    return [(part.kind, len(part.value), part.value) for part in parts]


def full_name(data):
    """Returns the full name of a Data: its name, followed by its implicit digest."""
    digest = hashlib.sha256(data.whole).digest()
    return data.name + (bytes((IMPLICIT_DIGEST, 32)) + digest,)


def answers(data, name, can_be_prefix):
    """Returns whether a Data matches an Interest with this name and this CanBePrefix. MustBeFresh is not considered."""
    if name in (data.name, full_name(data)):
        return True
    return can_be_prefix and begins(full_name(data), name)
