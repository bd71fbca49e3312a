"""Orders and replies as objects: their bytes are those of the bundles, and bad fields are refused with their place."""

import dataclasses
import random
import string

import numpy
import pytest

import biqsolur
from biqsolur import OuchError, PriceError, ouch
from biqsolur.ouch import Cancel, Enter, Executed, MESSAGES, decode, own_token

ORDER = Enter(token="MINE1", side="B", shares=100, symbol="ABM", price=1_000_000)

# The example of each field that the layout of the program's documents has: (offset, length), counted from the type.
LAYOUT = {
    "O": [(1, 14), (15, 1), (16, 4), (20, 8), (28, 4), (32, 4), (36, 4), (40, 1), (41, 1), (42, 1), (43, 4), (47, 1),
          (48, 1)],
    "X": [(1, 14), (15, 4)],
    "S": [(1, 8), (9, 1)],
    "A": [(1, 8), (9, 14), (23, 1), (24, 4), (28, 8), (36, 4), (40, 4), (44, 4), (48, 1), (49, 8), (57, 1), (58, 1),
          (59, 4), (63, 1), (64, 1), (65, 1)],
    "C": [(1, 8), (9, 14), (23, 4), (27, 1)],
    "E": [(1, 8), (9, 14), (23, 4), (27, 4), (31, 1), (32, 8)],
    "J": [(1, 8), (9, 14), (23, 1)],
}
SIZES = {"O": 49, "X": 19, "S": 10, "A": 66, "C": 28, "E": 40, "J": 24}


def random_value(field, generator):
    """A value that the field may have, the ends of its range among them."""
    if field.kind == "number":
        most = 256 ** field.size - 1
        return generator.choice([0, 1, most, generator.randint(0, most)])
    letters = {"token": string.ascii_letters + string.digits, "side": "BS", "state": "LD",
               "byte": "".join(map(chr, range(256)))}.get(field.kind, "".join(map(chr, range(0x21, 0x7F))))
    text = "".join(generator.choices(letters, k=generator.randint(1, field.size)))
    if field.kind == "letters":
        return generator.choice(["", text, f" {text}"[:field.size], text])
    return " " if field.kind == "letter" and generator.random() < 0.1 else text


def random_message(letter, generator):
    kind = MESSAGES[letter]
    return kind(**{field.name: random_value(field, generator) for field in kind.FIELDS})


def test_the_layout_is_that_of_the_documents():
    assert {letter: kind.SIZE for letter, kind in MESSAGES.items()} == SIZES
    for letter, kind in MESSAGES.items():
        assert [(field.offset, field.size) for field in kind.FIELDS] == LAYOUT[letter]
        assert [field.name for field in kind.FIELDS] == [field.name for field in dataclasses.fields(kind)]


def test_an_order_byte_by_byte():
    assert ORDER.to_bytes() == (b"O" b"MINE1         " b"B" b"\0\0\0\x64" b"ABM     " b"\0\x0f\x42\x40"
                                b"\0\x01\x86\x9f" b"ABID"
                                b"Y" b"P" b"N" b"\0\0\0\0" b"N" b"N")
    assert ORDER.hex() == ORDER.to_bytes().hex()
    assert Cancel("MINE1", 40).to_bytes() == b"XMINE1         \0\0\0\x28"
    reply = Executed(handled=34_200_000_000_000, token="T0002000000017", shares=5, price=100_100, flag="R", match=3)
    assert reply.to_bytes() == (b"E" + (34_200_000_000_000).to_bytes(8, "big")
                                + b"T0002000000017\0\0\0\x05\0\x01\x87\x04R" + (3).to_bytes(8, "big"))


@pytest.mark.parametrize("letter", MESSAGES)
def test_bytes_and_values_stand_one_to_one(letter):
    generator = random.Random(f"ouch {letter}")
    seen = {}
    for _ in range(300):
        message = random_message(letter, generator)
        data = message.to_bytes()
        assert len(data) == SIZES[letter] and data[:1] == letter.encode()
        assert decode(data) == message and decode(data).to_bytes() == data
        assert seen.setdefault(data, message) == message


@pytest.mark.parametrize("letter", MESSAGES)
def test_a_changed_byte_is_another_message_or_is_refused_at_its_field(letter):
    generator = random.Random(f"changed {letter}")
    for _ in range(300):
        data = bytearray(random_message(letter, generator).to_bytes())
        at = generator.randrange(1, len(data))
        data[at] = generator.randrange(256)
        offset = max(first for first, _ in LAYOUT[letter] if first <= at)
        try:
            assert decode(data).to_bytes() == data
        except OuchError as error:
            assert error.offset == offset


@pytest.mark.parametrize("fields, offset, said", [
    ({"token": ""}, 1, "`token` is '', and is to be 1 to 14 letters and digits"),
    ({"token": "A" * 15}, 1, "1 to 14 letters"), ({"token": "a-b"}, 1, "letters and digits"),
    ({"token": "a "}, 1, "letters and digits"), ({"token": "ä"}, 1, "letters and digits"),
    ({"side": "b"}, 15, '`side` is \'b\', and is to be "B" (buy) or "S" (sell)'), ({"side": ""}, 15, "side"),
    ({"shares": -1}, 16, "`shares` is -1, and is to be a whole number from 0 to 4,294,967,295"),
    ({"shares": 2**32}, 16, "whole number"), ({"shares": 1.0}, 16, "whole number"),
    ({"shares": True}, 16, "whole number"),
    ({"shares": "1"}, 16, "whole number"), ({"symbol": "A B"}, 20, "without a space"), ({"symbol": ""}, 20, "1 to 8"),
    ({"symbol": "NINECHARS"}, 20, "1 to 8"), ({"price": -1}, 28, "whole number"),
    ({"price": None}, 28, "whole number"),
    ({"time_in_force": -5}, 32, "whole number"), ({"firm": "ABIDE"}, 36, "at most 4"),
    ({"firm": "AB "}, 36, "the last no space"),
    ({"display": ""}, 40, "one ASCII character"), ({"display": "\n"}, 40, "one ASCII character"),
    ({"capacity": "PP"}, 41, "one ASCII "
                             "character"), ({"minimum": 2**40}, 43, "whole number"), ({"customer": 1}, 48, "one ASCII"),
])
def test_a_field_that_cannot_be(fields, offset, said):
    with pytest.raises(OuchError) as caught:
        dataclasses.replace(ORDER, **fields)
    assert caught.value.offset == offset and said in str(caught.value) and str(caught.value).startswith("Enter Order: ")


def test_a_price_that_is_no_exact_one_says_what_to_write():
    """A float, where a text or a Decimal of dollars is meant; a text in the place of bytes is named too."""
    for price in (10.5, numpy.float64(10.0), "ten"):
        with pytest.raises(PriceError, match="write dollars as a text"):
            dataclasses.replace(ORDER, price=price)
    with pytest.raises(OuchError, match="is a text, and is to be bytes"):
        decode(ORDER.hex())


def test_numbers_of_other_types():
    assert Enter("A1", "S", numpy.int64(7), "ABM", numpy.uint32(100)) == Enter("A1", "S", 7, "ABM", 100)
    with pytest.raises(OuchError):
        Enter("A1", "S", numpy.float64(7), "ABM", 100)


@pytest.mark.parametrize("data, offset, said", [
    (b"", 0, "first byte is ''"), (b"Z", 0, "first byte is 'Z'"), (b"\xff" * 19, 0, "type of a message"),
    (ORDER.to_bytes()[:-1], 48, "48 bytes, and are to be 49"), (ORDER.to_bytes() + b"\0", 50, "50 bytes"),
    (b"X", 1, "1 bytes, and are to be 19"), (b"X" + bytes(18), 1, "`token`"),
    (b"X" + b" " * 14 + bytes(4), 1, "`token`"), (b"XA B           \0\0\0\0", 1, "`token`"),
    (b"C" + bytes(8) + b"A".ljust(14) + bytes(4) + b"\0", 27, "`reason`"),
])
def test_bytes_that_are_no_message(data, offset, said):
    with pytest.raises(OuchError) as caught:
        decode(data)
    assert caught.value.offset == offset and said in str(caught.value)


def test_bytes_of_another_message():
    with pytest.raises(OuchError, match="Cancel Order: the first byte is b'O', and is to be 'X'"):
        Cancel.from_bytes(ORDER.to_bytes())


def test_a_message_cannot_be_changed():
    with pytest.raises(dataclasses.FrozenInstanceError):
        ORDER.price = 5
    assert len({ORDER, dataclasses.replace(ORDER), Cancel("MINE1")}) == 2


def test_the_tokens_of_the_traders():
    assert own_token(2, 17) == "T0002000000017"
    for trader, number in ((0, 1), (10_000, 1), (1, 0), (1, 10**9)):
        with pytest.raises(OuchError, match="own token"):
            own_token(trader, number)


def test_every_message_of_a_bundle(market):
    """Each order and reply of each branch: decoded and encoded it is the bundle's bytes, with the data frames'
    fields."""
    bundle = biqsolur.read(market.bundle)
    for branch in bundle.branches.values():
        sent = list(branch.messages())
        assert [entry.data for entry in sent] == [entry.message.to_bytes() for entry in sent]
        orders = [entry for entry in sent if isinstance(entry.message, ouch.Order)]
        replies = [entry for entry in sent if isinstance(entry.message, ouch.Reply)]
        assert len(orders) + len(replies) == len(sent)
        for entries, frame in ((orders, branch.orders), (replies, branch.replies)):
            assert [(entry.event, entry.time, entry.trader) for entry in entries] == list(
                zip(frame.event, frame.time, frame.agent))
            columns = frame.assign(token=bundle.tokens.texts(frame.token))
            for name in ("token", "side", "shares", "symbol", "price", "handled", "reference", "match", "flag",
                         "reason"):
                if name in frame:
                    values = columns[name].tolist()
                    empty = "" if isinstance(values[0] if values else "", str) else 0
                    assert [getattr(entry.message, name, empty) for entry in entries] == values


def test_messages_are_made_as_they_are_asked_for(market):
    branch = biqsolur.read(market.bundle).branches["root"]
    messages = branch.messages()
    assert iter(messages) is messages
    first = next(messages, None)
    assert first is None or first.is_order and isinstance(first.message, (Enter, Cancel))
