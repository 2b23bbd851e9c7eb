#!/usr/bin/env python3
"""The bench's vectors: each input, and the listing that the page asks for.

    python3 tests/vectors.py FOLDER

writes FOLDER/NAME/stdin and FOLDER/NAME/stdout for each of them. Nothing is read, so what the programs print can never become what they must print.
`python3 tests/vectors.py crates` writes those that the gate compares.
"""
import os
import random
import sys

from listing import KINDS, PAIRS_WITHOUT_MEANING, listing


def packet(text):
    """A packet with this id and data."""
    return b"\x01" + text + b"\x17"


def sample():
    """What examples/packets.bin has: packets taken and refused, bytes that are none, and one cut short."""
    good = b"".join(packet(text) for text in (b"A1", b"G+0009900", b"G+0025000", b"HBM", b"HAM", b"IE", b"KH", b"A4", b"Z"))
    return good + b"noise\x17" + b"\x01A0"


def borders():
    """Around 41 bytes: the 0x17 behind 40 others, behind 41, none at all; packets G around the largest offset that does not need the jam off, and both zeros; and a rest of 40."""
    forty = b"\x01A" + b"0" * 38
    offsets = b"".join(packet(b"G" + sign + digits) for digits in (b"0009899", b"0009900", b"0009901", b"0010000", b"0000000") for sign in (b"+", b"-"))
    return (forty + b"\x17") + (forty + b"0" + b"\x17") + (forty + b"0") + offsets + forty


def ids():
    """Each byte as an id. As 0x17 it ends its packet, and the 0x17 behind it stands alone."""
    return b"".join(packet(bytes([byte])) for byte in range(256))


def guide():
    """The user's guide's worked packets, as it sends them: B and P are no ids of ours, and its H has no modulation."""
    return b"".join(packet(text) for text in (b"A1", b"B123112233", b"A0", b"HB", b"G+0025000", b"P04"))


def tables():
    """Every id with each byte in each place of its data, the other places held at a byte of their kind; then H with every pair of letters."""
    out = []
    for ident, kinds in KINDS.items():
        good = bytes(kind[0] for kind in kinds)
        for place in range(len(kinds)):
            for byte in range(256):
                out.append(packet(ident + good[:place] + bytes([byte]) + good[place + 1:]))
    return b"".join(out) + pairs()


def pairs():
    """H with every pair of capital letters, and with bytes that are none in either place."""
    letters = bytes(range(ord("A"), ord("Z") + 1))
    others = b"abcmdnx09+- \x00\x01\x16\x18\x7f\x80\xff"
    capital = [packet(b"H" + bytes([f, m])) for f in letters for m in letters]
    mixed = [packet(b"H" + bytes(two)) for f in b"ABCNX" for o in others for two in ((f, o), (o, ord("M")), (o, ord("D")))]
    return b"".join(capital + mixed)


def torn(source):
    """A packet, whole or torn in one way: each way leads to another number most of the time."""
    ident = bytes([source.choice(b"AGHIK")])
    kinds = KINDS[ident]
    data = bytes(source.choice(kind) for kind in kinds)
    place = source.randrange(len(data))
    anything = bytes(source.choice(b"0123456789ABCDEHIKMNX+-") for _ in range(source.randrange(60)))
    return source.choice((
        packet(ident + data),
        packet(b"A" + bytes([source.choice(b"47")])),
        packet(b"H" + source.choice(PAIRS_WITHOUT_MEANING)),
        packet(ident + data[:place] + bytes([source.randrange(256)]) + data[place + 1:]),
        packet(ident + data[:place]),
        packet(ident + data + anything[:4]),
        packet(bytes([source.randrange(256)]) + data),
        packet(b""),
        bytes([source.randrange(256)]) + ident + data + b"\x17",
        b"\x01" + ident + anything.ljust(39, b"0"),
        b"\x01" + ident + anything,
    ))


def noise():
    """Packets of every sort, whole and torn, more than one read brings, and then bytes without order. Every answer is common but 6, which the bench's cuts leave to
    the last rest alone."""
    source = random.Random(635)
    common = b"\x01\x01\x17\x17AGHIK+-0123456789BCDEMNX"
    bytes_ = bytes(source.choice(common) if source.random() < 0.97 else source.randrange(256) for _ in range(20_000))
    return b"".join(torn(source) for _ in range(16_000)) + bytes_ + b"\x17\x01A0"


VECTORS = {
    "bench": b"\x01A0\x17\x01Z\x17",
    "bench_sample": sample(),
    "bench_empty": b"",
    "bench_rest": b"\x01A0\x17\x01A0",
    "bench_borders": borders(),
    "bench_ids": ids(),
    "bench_guide": guide(),
    "bench_tables": tables(),
    "bench_noise": noise(),
}


def main(folder):
    for name, data in VECTORS.items():
        place = os.path.join(folder, name)
        os.makedirs(place, exist_ok=True)
        for file, content in (("stdin", data), ("stdout", listing(data))):
            with open(os.path.join(place, file), "wb") as out:
                out.write(content)


if __name__ == "__main__":
    main(*sys.argv[1:])
