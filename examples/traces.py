"""traces.py FILE: each branch of a bundle, or each state of a rewind, as text.

Writes NAME.trace for each branch, into the folder where it runs: a line for each event and edit, and then what stands at the
end: stocks, live orders, agents, and of a rewind also the messages that wait. Prices have four implied decimals, times
are in nanoseconds past midnight, money is in millionths of a dollar. What the frames have is in docs/FORMATS.md.
"""

import sys

def number(f, at, size, signed=False):
    return int.from_bytes(f[at:at + size], "big", signed=signed)

def order(m):  # an order, a cancel, and the answers to them
    text = chr(m[0]) + " " + (m[1:15] if m[0] in b"OX" else m[9:23]).decode()
    if m[0] in b"O": return text + f" {chr(m[15])} {number(m, 16, 4)} at {number(m, 28, 4)}"
    if m[0] in b"E": return text + f" {number(m, 23, 4)} at {number(m, 27, 4)} {chr(m[31])}"
    return text

def line(f):
    kind = chr(f[0])
    if kind == "e":
        what, body = chr(f[42]), f[43:]
        if what in "io": what = order(body)
        if what == "q": what = f"q {number(body, 3, 4)} {number(body, 15, 4)}"
        return f"{number(f, 1, 4)} {number(f, 5, 8)} {number(f, 21, 2)}->{number(f, 23, 2)} {chr(f[25])} {what}"
    if kind == "d": return f"edit {chr(f[17])} after event {number(f, 1, 4)}"
    if kind == "c": return f"end {chr(f[1])} after event {number(f, 2, 4)}"
    if kind == "s": return f"stock {number(f, 1, 2)}: {number(f, 8, 8)} shares, fees {number(f, 16, 16, True)}"
    if kind == "l": return f"order of agent {number(f, 9, 2)}: {chr(f[25])} {number(f, 30, 4)} at {number(f, 36, 4)}"
    if kind == "n": return "hidden " + line(b"l" + f[1:])
    if kind == "w": return f"waits for {number(f, 1, 8)}: {number(f, 17, 2)}->{number(f, 19, 2)} {chr(f[21])}"
    if kind == "a": return f"agent {number(f, 1, 2)}: cash {number(f, 24, 16, True)}"

bundle, at, out = open(sys.argv[1], "rb").read(), 0, None
while at < len(bundle):
    size = number(bundle, at, 2)
    frame = bundle[at + 2:at + 2 + size]
    at += 2 + size
    if frame[:1] == b"b": out = open(frame[10:].decode() + ".trace", "w")
    elif line(frame): print(line(frame), file=out)
