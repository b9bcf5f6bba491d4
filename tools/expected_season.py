#!/usr/bin/env python3
"""What the program season has to write, made from the formats alone. Usage: tools/expected_season.py > crates/season/stdout"""

from keccak_ref import keccak256

GOLDILOCKS = "Algebra(18446744069414584321^1;%s)" % keccak256(b"Goldilocks").hex()
BABY_BEAR = "Algebra(2013265921^1;%s)" % keccak256(b"BabyBear").hex()

# level, hierarchy, kind, label, length, tag
STEPS = [
    (0, "Begin", "Protocol", "berth season", "None", "Marker"),
    (1, "Atomic", "Public", "berth", "Bounded(16)", "Bytes"),
    (1, "Atomic", "Salt", "post's nonce", "Fixed(16)", "Bytes"),
    (1, "Begin", "Message", "readings", "None", "Marker"),
    (2, "Atomic", "Message", "kWh of each day", "Bounded(366)", GOLDILOCKS),
    (2, "Atomic", "Message", "highest draw", "Scalar", BABY_BEAR),
    (1, "End", "Message", "readings", "None", "Marker"),
    (1, "Atomic", "Challenge", "mix", "Scalar", GOLDILOCKS),
    (1, "Atomic", "Message", "mixed sum", "Fixed(8)", "Bytes"),
    (1, "Atomic", "Hint", "page of the berth book", "Fixed(4)", "Bytes"),
    (0, "End", "Protocol", "berth season", "None", "Marker"),
]


def rendering():
    width = len(str(len(STEPS) - 1))
    lines = ["Plonky3 Fiat-Shamir Transcript (%d interactions)" % len(STEPS)]
    for position, (level, hierarchy, kind, label, length, tag) in enumerate(STEPS):
        lines.append("%0*d %s%s %s %d %s %s %s" % (width, position, "  " * level, hierarchy, kind, len(label), label, length, tag))
    return "".join(line + "\n" for line in lines)


def main():
    text = rendering()
    digest = keccak256(text.encode())
    name = b"Honethyme berth season"
    identifier = bytes([1]) + name + bytes(62 - len(name)) + bytes([len(name)])
    seed = identifier + digest + bytes(4) + b"\x80"
    print("record the season's steps: ok")
    print(text, end="")
    print("pattern hash:", digest.hex())
    print("check the steps again: ok")
    print("identifier:", identifier.hex())
    print("seed:", seed.hex())
    print("follow the pattern: ok")
    print("finish: ok")
    print("finish before the first step: refused by 21")
    print("go on after the finish: refused by 12")
    print("all of it: ok")


main()
