"""A branch's orders and replies as a network capture, which Wireshark and tshark dissect.

The file is a pcap with times in nanoseconds. Each trader has one TCP connection to the exchange, over Ethernet and
IPv4, and speaks Nasdaq's SoupBinTCP 3.00 on it: it logs in, sends its orders as unsequenced packets and gets the
replies as sequenced ones, all of them messages of OUCH 4.2. At the close the exchange ends the session and both sides
close the connection.

A packet has the time at which its receiver took the message, as the bundle has it; the day is 1 January 1970, so that
the time of day that Wireshark shows (in UTC) is the market's. The handshakes have the time of the opening. What was
still under way at the end is not there, and neither are heartbeats, retransmissions and what a real network adds.

The headers and their checksums are made by `dpkt` (Debian: python3-dpkt).
"""

from __future__ import annotations

from collections.abc import Iterator
from dataclasses import dataclass
from pathlib import Path
from types import ModuleType

import numpy

from biqsolur import layouts, missing
from biqsolur.bundle import Branch
from biqsolur.errors import MissingPackageError
from biqsolur.output import new_file

PORT = 26_400                   # of the exchange: no protocol of Wireshark's has it
FIRST_TRADER_PORT = 40_000      # a trader's port is this and its number
WINDOW = 65_535                 # bytes that each side is ready to take
UNACKNOWLEDGED = 16_384         # bytes that a side lets come up before it answers without data
USER, PASSWORD, SESSION = "T{:05d}", "SIMULATED", "BIQSOLUR"
SYN, FIN, PUSH, ACK = 0x02, 0x01, 0x08, 0x10


def to_capture(path: str | Path, branch: Branch) -> None:
    """Writes the orders and replies of a branch into a new file, a pcap.

    Raises OutputExistsError where the file is there already and MissingPackageError where dpkt is not installed."""
    dpkt = load_dpkt()
    with new_file(path) as file:
        writer = dpkt.pcap.Writer(file, snaplen=WINDOW, nano=True)
        for packet in packets(branch):
            writer.writepkt_time(frame_bytes(dpkt, packet), packet.time / 1e9)


def load_dpkt() -> ModuleType:
    """The library that makes packets."""
    try:
        import dpkt
    except ModuleNotFoundError as error:
        raise MissingPackageError(f"a capture needs dpkt, which makes packets: {missing.advice(error)}") from None
    return dpkt


# ---------------------------------------------------------------- packets

@dataclass
class Packet:
    """A TCP segment of the connection of a trader: its time (ns past midnight), which way it goes, its flags, the
    sequence number of its first byte, the one that it acknowledges, and its data."""

    time: int
    trader: int
    to_exchange: bool
    flags: int
    sequence: int
    acknowledged: int
    data: bytes = b""


class Connection:
    """The TCP connection of a trader: what each side sent, and what of it the other has acknowledged.

    Index 0 is the exchange's side, 1 the trader's. Each side's first sequence number is 0, which its SYN takes.
    """

    def __init__(self, trader: int) -> None:
        self.trader = trader
        self.sent = [0, 0]
        self.acknowledged = [0, 0]

    def segment(self, time: int, to_exchange: bool, flags: int, data: bytes = b"") -> Packet:
        """The next segment of a side. All but the first of all acknowledge what the other side sent."""
        side, other = int(to_exchange), int(not to_exchange)
        packet = Packet(time, self.trader, to_exchange, flags, self.sent[side] % 2**32, self.sent[other] % 2**32, data)
        self.sent[side] += len(data) + (flags & SYN != 0) + (flags & FIN != 0)
        if flags & ACK:
            self.acknowledged[other] = self.sent[other]
        return packet

    def data(self, time: int, to_exchange: bool, kind: str, payload: bytes = b"") -> Iterator[Packet]:
        """A SoupBinTCP packet, and an acknowledgement by the other side where much waits for one."""
        soup = (len(payload) + 1).to_bytes(2, "big") + kind.encode() + payload
        yield self.segment(time, to_exchange, PUSH | ACK, soup)
        side = int(to_exchange)
        if self.sent[side] - self.acknowledged[side] >= UNACKNOWLEDGED:
            yield self.segment(time, not to_exchange, ACK)

    def open(self, time: int) -> Iterator[Packet]:
        """The handshake and the login: user, password and session, and from which sequenced message on."""
        yield self.segment(time, True, SYN)
        yield self.segment(time, False, SYN | ACK)
        yield self.segment(time, True, ACK)
        user, session, first = USER.format(self.trader), SESSION.rjust(10), "1".rjust(20)
        yield from self.data(time, True, "L", f"{user:6}{PASSWORD:10}{session}{first}".encode())
        yield from self.data(time, False, "A", f"{session}{first}".encode())

    def close(self, time: int) -> Iterator[Packet]:
        """The end of the session, and of the connection."""
        yield from self.data(time, False, "Z")
        yield self.segment(time, False, FIN | ACK)
        yield self.segment(time, True, FIN | ACK)
        yield self.segment(time, False, ACK)


def packets(branch: Branch) -> Iterator[Packet]:
    """The packets of a branch, in the order of their times."""
    opened, closed = hours(branch)
    connections = [Connection(trader) for trader in range(1, branch.bundle.agents)]
    for connection in connections:
        yield from connection.open(opened)
    for sent in branch.messages():
        connection = connections[sent.trader - 1]
        yield from connection.data(sent.time, sent.is_order, "U" if sent.is_order else "S", sent.data)
    for connection in connections:
        yield from connection.close(closed)


def hours(branch: Branch) -> tuple[int, int]:
    """When the branch opened and when its run ended, ns past midnight."""
    frames, part = branch.bundle.frames, branch.part
    opening = frames.records(numpy.array([part.branch + 1]), layouts.FEED_HEAD)[0]
    counts = frames.records(numpy.array([part.counts]), layouts.COUNTS)[0]
    return (int(opening["time_upper"]) << 32) + int(opening["time_lower"]), int(counts["time"])


# ---------------------------------------------------------------- headers

def frame_bytes(dpkt: ModuleType, packet: Packet) -> bytes:
    """The Ethernet frame of a packet, with the headers of IPv4 and TCP and their checksums."""
    trader = (address(packet.trader), FIRST_TRADER_PORT + packet.trader)
    (source, source_port), (target, target_port) = (trader, (address(0), PORT)) if packet.to_exchange else (
        (address(0), PORT), trader)
    acknowledged = packet.acknowledged if packet.flags & ACK else 0
    segment = dpkt.tcp.TCP(sport=source_port, dport=target_port, seq=packet.sequence, ack=acknowledged,
                           flags=packet.flags, win=WINDOW, data=packet.data)
    datagram = dpkt.ip.IP(src=source, dst=target, p=dpkt.ip.IP_PROTO_TCP, ttl=64, df=1, data=segment)
    datagram.len = len(datagram)
    return bytes(dpkt.ethernet.Ethernet(src=b"\x02\0" + source, dst=b"\x02\0" + target, data=datagram))


def address(agent: int) -> bytes:
    """An agent's address: 10.0.0.1 of the exchange, 10.1.X.Y of trader 256 * X + Y."""
    return bytes([10, 0, 0, 1]) if agent == 0 else bytes([10, 1, agent >> 8, agent & 255])
