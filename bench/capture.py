"""Captures for Wireshark, made by a second program: bench/wireshark compares those of `rbcline pcap` with these, byte for
byte. docs/FORMATS.md has their form.

A capture has the radio messages of trains (lines `> train A HEX`) and of centres (`A -> 1 HEX`), each in a TCP segment of
its own, on a connection for each train and centre.
"""

import re
import struct

EVENT = re.compile(r"> (?:train (?P<centre>\w+) (?P<bytes>\S*)|(?P<other>set|unset|deliver) .*|(?P<show>show))")
ANSWER = re.compile(r"(?P<centre>\w+) -> (?P<engine>\d+) (?P<bytes>\S+)")
FAULT = re.compile(r"(?P<centre>\w+) fault \d+")
LINE_NAME = re.compile(r'\[\[\s*centre\s*\]\][^\[]*?\bname\s*=\s*"(\w+)"')
LINKTYPE_RAW = 101
FIN, SYN, PUSH, ACK = 1, 2, 8, 16


def checksum(data):
    """The checksum of the Internet protocols (RFC 1071)."""
    data += b"\0" * (len(data) % 2)
    total = sum(struct.unpack(f"!{len(data) // 2}H", data))
    while total >> 16:
        total = (total & 0xFFFF) + (total >> 16)
    return ~total & 0xFFFF


class Capture:
    """The packets of a capture, as bytes of the format pcap."""

    def __init__(self):
        self.data = bytearray(struct.pack("<IHHiIII", 0xA1B2C3D4, 2, 4, 0, 0, 65535, LINKTYPE_RAW))
        self.now, self.within = None, 0

    def add(self, seconds, packet):
        """Adds an IP packet. Those of one second are a microsecond apart."""
        self.within = self.within + 1 if seconds == self.now else 0
        self.now = seconds
        self.data += struct.pack("<IIII", seconds, self.within, len(packet), len(packet)) + packet


class Connection:
    """A TCP connection of a train to a centre."""

    def __init__(self, capture, train, centre, seconds):
        self.capture, self.ends, self.sent = capture, (train, centre), [1000, 5000]
        self.segment(seconds, 0, SYN)
        self.segment(seconds, 1, SYN | ACK)
        self.segment(seconds, 0, ACK)

    def segment(self, seconds, by, flags, data=b""):
        """Adds a segment that the train (0) or the centre (1) sends."""
        (source, port), (target, to) = self.ends[by], self.ends[1 - by]
        acknowledged = self.sent[1 - by] if flags & ACK else 0
        head = struct.pack("!HHIIBBHHH", port, to, self.sent[by], acknowledged, 5 << 4, flags, 65535, 0, 0)
        pseudo = source + target + struct.pack("!BBH", 0, 6, len(head) + len(data))
        sum_of = struct.pack("!H", checksum(pseudo + head + data))
        tcp = head[:16] + sum_of + head[18:] + data
        ip = struct.pack("!BBHHHBBH", 0x45, 0, 20 + len(tcp), 0, 0x4000, 64, 6, 0) + source + target
        self.capture.add(seconds, ip[:10] + struct.pack("!H", checksum(ip)) + ip[12:] + tcp)
        self.sent[by] += len(data) + bool(flags & (SYN | FIN))

    def send(self, seconds, by, data):
        """Adds segments with these bytes, of 1 024 at most each."""
        for at in range(0, max(len(data), 1), 1024):
            self.segment(seconds, by, PUSH | ACK, data[at : at + 1024])

    def end(self, seconds):
        """The centre ends the connection."""
        self.segment(seconds, 1, FIN | ACK)
        self.segment(seconds, 0, FIN | ACK)
        self.segment(seconds, 1, ACK)


def bytes_in(text):
    """The bytes of hexadecimal digits, or None."""
    return bytes.fromhex(text) if len(text) % 2 == 0 and re.fullmatch("[0-9A-Fa-f]*", text) else None


def engine_of(data):
    """NID_ENGINE of a train's message: bits 50 to 73. 0 if the bytes have none."""
    return int.from_bytes(data[:10], "big") >> 6 & 0xFFFFFF if len(data) >= 10 and data[0] >= 128 else 0


def events(text):
    """The messages of a print: number of the event, centre, engine, sender, and bytes, which a fault does not have."""
    event = 0
    for line in text.split("\n"):
        if it := EVENT.fullmatch(line):
            event += it["show"] is None
            if it["centre"] and (data := bytes_in(it["bytes"])) is not None:
                yield event, it["centre"], engine_of(data), 0, data
        elif it := ANSWER.fullmatch(line):
            if (data := bytes_in(it["bytes"])) is not None:
                yield event, it["centre"], int(it["engine"]), 1, data
        elif it := FAULT.fullmatch(line):
            yield event, it["centre"], 0, 1, None


def names_in(text):
    """The names of the centres of a line file, in their order."""
    return LINE_NAME.findall(text)


def capture_of(text, first_port=21000, names=None):
    """The capture of a print. Without names, centres are in the order of their names."""
    found = list(events(text))
    names = names or sorted({centre for _, centre, *_ in found})
    ports = {name: first_port + count for count, name in enumerate(names)}
    capture, connections, opened, last = Capture(), {}, 0, None
    for event, centre, engine, by, data in found:
        if data is None:
            # the fault of the bytes of this event
            if last in connections:
                connections.pop(last).end(event)
            continue
        key = (centre, engine)
        if key not in connections:
            train = (bytes([10]) + (engine & 0xFFFFFF).to_bytes(3, "big"), 32768 + opened % 28000)
            connections[key] = Connection(capture, train, (bytes([127, 0, 0, 1]), ports[centre]), event)
            opened += 1
        connections[key].send(event, by, data)
        last = key if by == 0 else last
    return bytes(capture.data)
