# What the program `transcript` has to write for the script on standard input, from the language's rules alone.
import pathlib
import re
import sys

sys.path.insert(0, str(pathlib.Path(__file__).parent))
from keccak_ref import keccak256

LONGEST = 65536

MODULI = {"BabyBear": 2**31 - 2**27 + 1, "Goldilocks": 2**64 - 2**32 + 1}

# By name: the modulus, the bytes on the wire, the bits of the value's type, the declared security bits.
CODECS = {
    "BabyBear": (MODULI["BabyBear"], 4, 32, 128),
    "Goldilocks": (MODULI["Goldilocks"], 8, 64, 128),
    "GoldilocksShort": (MODULI["Goldilocks"], 8, 64, 32),
}


def number(word):
    if not re.fullmatch(rb"[0-9]+", word):
        return None
    digits = word.lstrip(b"0") or b"0"
    return int(digits) if len(digits) <= 20 and int(digits) < 2**64 else None


def data(word):
    if word == b"-":
        return b""
    if re.fullmatch(rb"([0-9a-f]{2})+", word):
        return bytes.fromhex(word.decode())
    return None


def one_of(names):
    known = {name.encode(): name for name in names}
    return known.get


def hexed(some):
    return some.hex() if some else "-"


def width(max):
    return f"ok {(max.bit_length() + 7) // 8}"


def encode_len(len, width):
    if width > 8 or len >= 256**width:
        return "refused 2 " + hexed(bytes(8))
    return "ok " + hexed(len.to_bytes(width, "big").ljust(8, b"\0"))


def decode_len(buffer, width):
    if width > 8 or width > len(buffer):
        return "refused 2"
    return f"ok {int.from_bytes(buffer[:width], 'big')}"


def keccak(message):
    return "ok " + hexed(keccak256(message))


def items(unit, some):
    if unit == "word":
        some = [int.from_bytes(some[at : at + 3].ljust(3, b"\0"), "big") for at in range(0, len(some), 3)]
    return " ".join(["ok", *(str(item) for item in some)])


def encode(codec, value):
    modulus, wide, size, _ = CODECS[codec]
    if value >= 2**size:
        return "error"
    return "ok " + hexed((value % modulus).to_bytes(wide, "little"))


def decode(codec, wire):
    modulus, wide, _, _ = CODECS[codec]
    value = int.from_bytes(wire, "little")
    return f"ok {value}" if len(wire) == wide and value < modulus else "fault 1"


def bits(codec):
    return f"ok {CODECS[codec][3]}"


def tag(field):
    return f"ok Algebra({MODULI[field]}^1;{keccak256(field.encode()).hex()}) {field}"


UNIT = one_of(["byte", "word"])
FIELD = one_of(MODULI)
CODEC = one_of(CODECS)

COMMANDS = {
    b"width": ([number], width),
    b"encode-len": ([number, number], encode_len),
    b"decode-len": ([data, number], decode_len),
    b"keccak": ([data], keccak),
    b"items": ([UNIT, data], items),
    b"encode": ([CODEC, number], encode),
    b"decode": ([CODEC, data], decode),
    b"bits": ([CODEC], bits),
    b"tag": ([FIELD], tag),
}


def answer(line):
    words = [word for word in line.split(b" ") if word]
    if line[:1] == b"#" or not words:
        return None
    if len(line) > LONGEST or words[0] not in COMMANDS:
        return "error"
    parts, run = COMMANDS[words[0]]
    if len(words) - 1 != len(parts):
        return "error"
    values = [part(word) for part, word in zip(parts, words[1:])]
    return "error" if None in values else run(*values)


lines = sys.stdin.buffer.read().split(b"\n")
if lines[-1] == b"":
    lines.pop()
for line in lines:
    said = answer(line)
    if said is not None:
        print(said)
