"""A branch as a network capture: a plain reader finds each message and right headers, and tshark dissects every
field."""

import shutil
import struct
import subprocess
import sys
from collections import defaultdict

import pytest
import studies

import biqsolur
from biqsolur import capture
from biqsolur.__main__ import main
from biqsolur.ouch import Accepted, Canceled, Enter, Executed, Rejected

pytest.importorskip("dpkt", reason="dpkt is not installed (Debian: python3-dpkt)")
SEEDS = [3, 8, 17, 23, 41, 50]
TSHARK = shutil.which("tshark")
HEADERS = 14 + 20 + 20

# The field of Wireshark's OUCH dissector for each attribute of a message.
OUCH = {
    "token": "order_token", "side": "buy_sell_indicator", "symbol": "stock", "price": "price", "time_in_force": "tif",
    "firm": "firm", "display": "display", "capacity": "capacity", "sweep": "iso_eligible", "minimum": "min_quantity",
    "cross": "cross_type", "customer": "customer_type", "handled": "timestamp", "reference": "order_reference_number",
    "state": "order_state", "weight": "bbo_weight_indicator", "match": "match_number", "flag": "liquidity_flag"}
RENAMED = {
    (Executed, "shares"): "executed_shares", (Executed, "price"): "execution_price",
    (Canceled, "shares"): "decrement_shares", (Canceled, "reason"): "cancel_reason",
    (Rejected, "reason"): "reject_reason"}


@pytest.fixture(scope="module", params=SEEDS)
def bundle(request, program, tmp_path_factory):
    """The bundle of a random study."""
    folder = tmp_path_factory.mktemp("capture")
    study, series = studies.make_study(request.param)
    (folder / "study.toml").write_text(studies.toml(study))
    if series is not None:
        (folder / study["series"]).write_text(series)
    answer = subprocess.run([program, "run", "study.toml"], cwd=folder, capture_output=True, check=True)
    (folder / "study.bundle").write_bytes(answer.stdout)
    return biqsolur.read(folder / "study.bundle")


@pytest.fixture(scope="module")
def captured(bundle, tmp_path_factory):
    """The last branch of a bundle, and the file of its capture."""
    branch = list(bundle.branches.values())[-1]
    path = tmp_path_factory.mktemp("pcap") / "branch.pcap"
    biqsolur.to_capture(path, branch)
    return branch, path


def read_pcap(data):
    """(nanoseconds, bytes) of each packet of a pcap."""
    magic, _, _, _, _, _, link = struct.unpack("<IHHiIII", data[:24])
    assert (magic, link) == (0xA1B23C4D, 1)
    at, out = 24, []
    while at < len(data):
        seconds, nanoseconds, size, whole = struct.unpack("<IIII", data[at:at + 16])
        assert size == whole
        out.append((seconds * 10**9 + nanoseconds, data[at + 16:at + 16 + size]))
        at += 16 + size
    assert at == len(data)
    return out


def checksum(data):
    """The internet checksum, which is 0 over bytes that have their own in them."""
    total = sum(struct.unpack(f">{(len(data) + 1) // 2}H", data + bytes(len(data) % 2)))
    while total >> 16:
        total = (total & 0xFFFF) + (total >> 16)
    return ~total & 0xFFFF


def test_a_plain_reader_finds_the_messages(captured):
    branch, path = captured
    sent = iter(branch.messages())
    connections = defaultdict(lambda: {"sent": [0, 0], "heard": [0, 0], "packets": []})
    times = []
    for time, packet in read_pcap(path.read_bytes()):
        times.append(time)
        ip, tcp, data = packet[14:34], packet[34:54], packet[HEADERS:]
        assert packet[12:14] == b"\x08\0" and ip[0] == 0x45 and ip[9] == 6
        assert int.from_bytes(ip[2:4], "big") == len(packet) - 14 and checksum(ip) == 0
        assert checksum(ip[12:20] + bytes([0, 6]) + (len(tcp + data)).to_bytes(2, "big") + tcp + data) == 0
        source, target, sequence, acknowledged, flags, window = struct.unpack(">HHIIHH", tcp[:16])
        to_exchange = target == capture.PORT
        assert (source == capture.PORT) != to_exchange
        trader = (source if to_exchange else target) - 40_000
        addresses = (ip[12:16], ip[16:20]) if to_exchange else (ip[16:20], ip[12:16])
        assert addresses == (bytes([10, 1, trader >> 8, trader & 255]), bytes([10, 0, 0, 1]))
        state, side = connections[trader], int(to_exchange)
        assert sequence == state["sent"][side] and (not flags & 0x10 or acknowledged == state["sent"][1 - side])
        state["sent"][side] += len(data) + bool(flags & 0x02) + bool(flags & 0x01)
        if flags & 0x10:
            state["heard"][1 - side] = acknowledged
        assert state["sent"][side] - state["heard"][side] <= window
        state["packets"].append((to_exchange, flags & 0xFF, data[2:]))
        if data:
            assert int.from_bytes(data[:2], "big") == len(data) - 2
        if data[2:3] in (b"U", b"S"):
            assert (data[2:3] == b"U") == to_exchange
            entry = next(sent)
            assert (time, trader, to_exchange, data[3:]) == (entry.time, entry.trader, entry.is_order, entry.data)
    assert next(sent, None) is None and times == sorted(times)
    assert sorted(connections) == list(range(1, branch.bundle.agents))
    for trader, state in connections.items():
        packets = state["packets"]
        assert [flags for _, flags, _ in packets[:3]] == [0x02, 0x12, 0x10]
        assert packets[3][2] == b"L" + f"T{trader:05d}SIMULATED   BIQSOLUR".encode() + b"1".rjust(20)
        assert packets[4][2] == b"A  BIQSOLUR" + b"1".rjust(20)
        assert packets[-4][2] == b"Z" and [flags for _, flags, _ in packets[-3:]] == [0x11, 0x11, 0x10]


def field_name(message, name):
    return "ouch." + RENAMED.get((type(message), name), OUCH.get(name, name))


def shown(name, value):
    """A value as tshark prints it."""
    if name == "handled":
        seconds, nanoseconds = divmod(value, 10**9)
        return f"{seconds // 3600}:{seconds // 60 % 60:02}:{seconds % 60:02}.{nanoseconds:09}"
    if name == "symbol":
        return f"{value:8}"
    widths = {"token": 14, "firm": 4}
    if name in widths:
        return value.ljust(widths[name])
    return f"'{value}'" if isinstance(value, str) else str(value)


@pytest.mark.skipif(TSHARK is None, reason="tshark is not installed (Debian: tshark)")
def test_tshark_dissects_each_field(captured, tmp_path):
    branch, path = captured
    names = sorted({field_name(kind, field.name) for kind in (Enter, Accepted) for field in kind.FIELDS}
                   | {f"ouch.{name}" for name in RENAMED.values()} | {"ouch.match_number", "ouch.liquidity_flag"})
    columns = ["frame.time_epoch", "ip.checksum.status", "tcp.checksum.status", "_ws.malformed",
               "tcp.analysis.flags", "soupbintcp.packet_type", "soupbintcp.message", "ouch.packet_type", *names]
    words = [TSHARK, "-n", "-r", path, "-d", f"tcp.port=={capture.PORT},soupbintcp", "-o", "ip.check_checksum:TRUE",
             "-o", "tcp.check_checksum:TRUE", "-T", "fields", "-E", "separator=/t",
             *(word for name in columns for word in ("-e", name))]
    answer = subprocess.run(words, capture_output=True, text=True,
                            env={"WIRESHARK_CONFIG_DIR": str(tmp_path), "HOME": str(tmp_path)})
    assert answer.returncode == 0, answer.stderr
    rows = [dict(zip(columns, line.split("\t"))) for line in answer.stdout.splitlines()]
    assert len(rows) == len(read_pcap(path.read_bytes()))
    assert {(row["ip.checksum.status"], row["tcp.checksum.status"]) for row in rows} == {("1", "1")}
    assert not any(row["_ws.malformed"] or row["tcp.analysis.flags"] for row in rows)
    carried = [row for row in rows if row["soupbintcp.packet_type"] in ("'U'", "'S'")]
    sent = list(branch.messages())
    assert len(carried) == len(sent)
    for row, entry in zip(carried, sent):
        message = entry.message
        said = {field_name(message, field.name): shown(field.name, getattr(message, field.name))
                for field in message.FIELDS}
        assert row["ouch.packet_type"] == f"'{message.TYPE}'"
        assert row["frame.time_epoch"] == f"{entry.time // 10**9}.{entry.time % 10**9:09}"
        assert {name: row[name] for name in names if row[name]} == said


def test_much_that_is_unanswered_is_acknowledged():
    connection, packets = capture.Connection(7), []
    packets += connection.open(5)
    for _ in range(3_000):
        packets += connection.data(6, False, "S", bytes(66))
    flights = 0
    for packet in packets:
        flights = 0 if packet.to_exchange else flights + len(packet.data)
        assert flights < capture.WINDOW
    assert sum(not packet.data for packet in packets) == 3 + 3_000 * 69 // capture.UNACKNOWLEDGED


def test_each_agent_has_an_address_of_its_own():
    assert capture.address(0) == bytes([10, 0, 0, 1]) and capture.address(300) == bytes([10, 1, 1, 44])
    assert len({capture.address(agent) for agent in range(512)}) == 512


def test_the_command_and_what_it_refuses(bundle, tmp_path, capsys, monkeypatch):
    out = str(tmp_path / "root.pcap")
    assert main(["capture", bundle.path, "root", "-o", out]) == 0
    first = (tmp_path / "root.pcap").read_bytes()
    assert main(["capture", bundle.path, "root", "-o", out]) == 1
    assert "root.pcap is there already; nothing was written" in capsys.readouterr().err
    assert main(["capture", bundle.path, "no such", "-o", str(tmp_path / "b.pcap")]) == 1
    assert "no branch 'no such'" in capsys.readouterr().err
    monkeypatch.setitem(sys.modules, "dpkt", None)
    assert main(["capture", bundle.path, "root", "-o", str(tmp_path / "b.pcap")]) == 1
    assert "python3-dpkt" in capsys.readouterr().err
    assert [path.name for path in tmp_path.iterdir()] == ["root.pcap"]
    assert (tmp_path / "root.pcap").read_bytes() == first


def test_nothing_stays_of_a_capture_that_is_cut(captured, tmp_path, monkeypatch):
    def broken(*_):
        raise KeyboardInterrupt
    monkeypatch.setattr(capture, "frame_bytes", broken)
    with pytest.raises(KeyboardInterrupt):
        biqsolur.to_capture(tmp_path / "cut.pcap", captured[0])
    assert list(tmp_path.iterdir()) == []
