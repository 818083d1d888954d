"""Follows a script and its report side by side, for bench/interop: each datagram with the keys and the header that the script gives it."""
import re, struct, uuid
from dataclasses import dataclass, replace

# sender, datagram, payload type, number, marker, timestamp and payload of an accept line
ACCEPTED = re.compile(r"\w+ \d+ \d+ \d+ \d+ \d+ (-|([0-9a-f]{2})+)")


class Unreadable(Exception):
    """The report isn't one of the script, or the script isn't of the language."""


class Ended(Exception):
    """The report ends here."""


def lines_of(path):
    """The lines of a file; one that isn't ASCII stands for none of the language."""
    with open(path, "rb") as source:
        text = source.read().decode("latin-1")
    return text.split("\n")[:-1] if text.endswith("\n") else text.split("\n") if text else []


@dataclass
class Head:
    """The fields of an RTP header (RFC 3550 section 5.1); the extension from its profile on, without its length."""
    pt: int
    seq: int
    marker: int
    timestamp: int
    ssrc: int
    sources: tuple
    extension: bytes
    padding: int


def head_of(octets):
    """The RTP header in front and its length, or None."""
    if len(octets) < 12 or octets[0] >> 6 != 2:
        return None
    first, second, seq, timestamp, ssrc = struct.unpack(">BBHII", octets[:12])
    at = 12 + 4 * (first & 15)
    length = at + 4 + 4 * int.from_bytes(octets[at + 2:at + 4], "big") if first & 16 else at
    if len(octets) < length:
        return None
    sources = struct.unpack(f">{first & 15}I", octets[12:at])
    extension = octets[at:at + 2] + octets[at + 4:length] if first & 16 else None
    return Head(second & 127, seq, second >> 7, timestamp, ssrc, sources, extension, first >> 5 & 1), length


def is_rtcp(octets):
    """Whether it is RTCP by its first two octets (RFC 5761)."""
    return len(octets) > 1 and octets[0] >> 6 == 2 and 192 <= octets[1] <= 223


@dataclass
class FullField:
    spi: int
    epoch: int
    wrapped: bytes


def without_field(datagram):
    """The packet and the EKT field behind it (RFC 8870 section 4.1); None where there is no field."""
    if not datagram or datagram[-1] == 1:
        return None
    length = 1 if datagram[-1] == 0 else int.from_bytes(datagram[-3:-1], "big")
    if not 1 <= length <= len(datagram):
        return None
    return datagram[:-length], datagram[-length:]


def full_field(field):
    """The SPI, the epoch and the wrapped key of a full field; None for another."""
    if field[-1] != 2 or len(field) < 7:
        return None
    return FullField(int.from_bytes(field[-7:-5], "big"), int.from_bytes(field[-5:-3], "big"), field[:-7])


def originals(header, opened):
    """The header that the sender gave, and the inner octets, where `opened` ends in an original header block (RFC 8723 section 4)."""
    if not opened:
        return None
    config, opened = opened[-1], opened[:-1]
    cut = bytearray(header[:12 + 4 * (header[0] & 15)])
    cut[0] &= ~16
    if config & 1:
        cut[2:4], opened = opened[-2:], opened[:-2]
    if config & 2:
        cut[1:2], opened = bytes([cut[1] & 128 | opened[-1]]), opened[:-1]
    if config & 4:
        cut[1] = cut[1] & 127 | (config & 8) << 4
    return bytes(cut), opened


@dataclass
class Sent:
    """What one line `send` makes, with the sender's own key behind it."""
    sender: str
    head: Head
    index: int
    body: bytes
    master: bytes
    spi: int
    epoch: int
    ekt: bytes


@dataclass
class Wire:
    """One datagram: what its header tells, the pair and the index of its outer layer, and the send in it, where these are known."""
    number: int
    kind: str
    octets: bytes
    head: Head = None
    sent: Sent = None
    rtcp: bytes = None
    master: bytes = None
    index: int = None
    opened: bytes = None


@dataclass
class Taking:
    """A datagram reaches a receiver, which refuses it for a reason or opens it; an accept line gives fields, or RTCP's octets."""
    wire: Wire
    at: str
    master: bytes
    refused: str = None
    accepted: list = None
    rtcp: bytes = None
    opened: bytes = None


@dataclass
class Member:
    name: str
    ssrc: int
    index: int
    client: bytes
    server: bytes
    key: bytes
    spi: int
    epoch: int = 0


def nearest(highest, seq):
    """The index nearest to the highest (RFC 3711 section 3.3.1); the number itself where there is none."""
    if highest is None:
        return seq
    near = highest - highest % 65536 + seq
    if highest % 65536 < 32768:
        return near - 65536 if near - highest > 32768 else near
    return near + 65536 if highest - near > 32768 else near


def options(words):
    return dict(word.split("=", 1) for word in words)


def changed(head, words):
    """The header after these changes of a forward or a reseal."""
    told = options(words)
    head = replace(head, seq=(head.seq + int(told.get("shift", 0))) % 65536)
    if "pt" in told:
        head = replace(head, pt=int(told["pt"]))
    if "marker" in told:
        head = replace(head, marker=int(told["marker"]))
    if "ext" in told:
        head = replace(head, extension=None if told["ext"] == "drop" else bytes.fromhex(told["ext"]))
    return head


class Conference:
    """Follows a script and its report side by side."""

    def __init__(self, report):
        self.report = report
        self.at = 0
        self.records = []
        self.members = {}
        self.joins = 0
        self.wires = []
        self.takings = []
        self.highest = {}
        self.differ = []

    def follow(self, script):
        """Reads the script's lines as far as the report goes; the line before which the report ends, or None."""
        for number, line in enumerate(script, 1):
            words, before = line.split(" "), self.at
            if line == "" or line.startswith("#"):
                continue
            try:
                getattr(self, "on_" + words[0])(*words[1:])
            except (Ended, AttributeError, IndexError, KeyError, TypeError, ValueError):
                if before < len(self.report):
                    raise Unreadable(f"line {number} of the script and line {before + 1} of the report don't go together")
                return number
        if self.at < len(self.report):
            raise Unreadable(f"line {self.at + 1} of the report has no line in the script")
        return None

    def words(self):
        """The report's next words, which stay."""
        if self.at == len(self.report):
            raise Ended
        return self.report[self.at].split(" ")

    def told(self, *begin):
        """The report's next line begins with these words: the others."""
        words = self.words()
        if words[:len(begin)] != list(begin):
            raise Unreadable(f"line {self.at + 1} of the report isn't: {' '.join(begin)}")
        self.at += 1
        return words[len(begin):]

    def wire(self, kind, *names):
        """The datagram of the report's next line."""
        number = len(self.wires) + 1
        it = Wire(number, kind, bytes.fromhex(*self.told("wire", str(number), kind, *names)))
        self.wires.append(it)
        return it

    def datagram(self, number):
        if int(number) == 0:
            raise ValueError
        return self.wires[int(number) - 1]

    def on_conference(self, profile):
        pass

    def on_ekt(self, key, salt):
        self.told("ekt", str(len(self.records) + 1))
        self.records.append((bytes.fromhex(key), bytes.fromhex(salt)))

    def on_join(self, name, ssrc, seq, client, server, key):
        self.joins += 1
        self.told("joined", name, str(uuid.UUID(int=self.joins)))
        pairs = bytes.fromhex(client), bytes.fromhex(server)
        self.members[name] = Member(name, int(ssrc, 16), int(seq), *pairs, bytes.fromhex(key), len(self.records))

    def on_leave(self, name):
        self.told("left", name)
        del self.members[name]

    def on_grant(self, name, spi, key):
        member = self.members[name]
        if self.words()[0] == "denied":
            self.told("denied", name)
        else:
            self.told("granted", name, spi)
            member.spi, member.key, member.epoch = int(spi), bytes.fromhex(key), 0

    def on_rekey(self, name, key):
        member = self.members[name]
        if self.words()[0] == "denied":
            self.told("denied", name)
        else:
            self.told("rekeyed", name, str(member.spi), str(member.epoch + 1))
            member.key, member.epoch = bytes.fromhex(key), member.epoch + 1

    def on_send(self, name, pt, marker, timestamp, payload, *more):
        member, told = self.members[name], options(more)
        it = self.wire("up", name)
        sources = tuple(int(it, 16) for it in told["csrc"].split(",")) if "csrc" in told else ()
        extension = bytes.fromhex(told["ext"]) if "ext" in told else None
        padding = int(told.get("pad", 0))
        rest = member.ssrc, sources, extension, int(padding > 0)
        it.head = Head(int(pt), member.index % 65536, int(marker), int(timestamp), *rest)
        body = (b"" if payload == "-" else bytes.fromhex(payload)) + (bytes(padding - 1) + bytes([padding]) if padding else b"")
        ekt, salt = self.records[member.spi - 1]
        it.sent = Sent(name, it.head, member.index, body, member.key + salt, member.spi, member.epoch, ekt)
        it.master, it.index = member.client, member.index
        member.index += 1

    def on_rtcp(self, name, octets):
        member = self.members[name]
        it = self.wire("up", name)
        it.rtcp, it.master = bytes.fromhex(octets), member.client

    def made(self, octets):
        it = self.wire("made")
        if it.octets != octets:
            self.differ.append(f"wire {it.number}: its octets aren't those that the script asks for")
        if not is_rtcp(octets) and (read := head_of(octets)):
            it.head = read[0]

    def on_inject(self, octets):
        self.made(bytes.fromhex(octets))

    def on_alter(self, number, offset, octets):
        before, new, at = self.datagram(number).octets, bytes.fromhex(octets), int(offset)
        self.made(before[:at] + new + before[at + len(new):])

    def on_graft(self, first, front, second, back):
        end = self.datagram(second).octets
        self.made(self.datagram(first).octets[:int(front)] + end[len(end) - int(back):])

    def on_reseal(self, number, name, roc, *changes):
        base, member = self.datagram(number), self.members[name]
        it = self.wire("reseal", name)
        it.head, it.sent, it.master = changed(base.head, changes), base.sent, member.server
        it.index = int(roc) * 65536 + it.head.seq

    def on_forward(self, name, numbers, *more):
        changes = [word for word in more if not word.startswith("to=")]
        only = options(more).get("to")
        to = [it for it in self.members.values() if it.name != name and (only is None or it.name in only.split(","))]
        for number in numbers.split(","):
            base, sender = self.datagram(number), self.members[name]
            refused = None
            if (to or self.at < len(self.report)) and self.words()[:3] == ["refuse", number, "media"]:
                refused = self.told("refuse", number, "media")[0]
            self.takings.append(Taking(base, "the distributor", sender.client, refused))
            for member in [] if refused else to:
                self.forwarded(base, member, changes)

    def forwarded(self, base, member, changes):
        """A datagram goes on to a member, or is dropped."""
        if self.words()[0] == "drop":
            self.told("drop", str(base.number), member.name)
            return
        it = self.wire("down", member.name)
        it.sent, it.rtcp, it.master = base.sent, base.rtcp, member.server
        if base.head:
            it.head = changed(base.head, changes)
            stream = member.name, it.head.ssrc
            it.index = nearest(self.highest.get(stream), it.head.seq)
            if it.index < 0:
                raise Unreadable(f"wire {it.number} has no outer index")
            self.highest[stream] = max(it.index, self.highest.get(stream, 0))

    def on_deliver(self, number, name):
        taking = Taking(self.datagram(number), name, self.members[name].server)
        verb = self.words()[0]
        told = self.told(verb, number, name)
        if verb == "refuse":
            taking.refused = told[0]
        elif verb == "rtcp":
            taking.rtcp = bytes.fromhex(*told)
        elif verb == "accept" and ACCEPTED.fullmatch(" ".join(told)):
            taking.accepted = told
        else:
            raise Unreadable(f"line {self.at} of the report answers no deliver")
        self.takings.append(taking)

    def send_of(self, taking):
        """The send that an accept line names, if there is one."""
        number = int(taking.accepted[1])
        wire = self.wires[number - 1] if 0 < number <= len(self.wires) else None
        return wire if wire and wire.kind == "up" and wire.sent and wire.sent.sender == taking.accepted[0] else None
