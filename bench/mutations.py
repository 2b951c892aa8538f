"""Mutations of inputs, for hostile.py: each takes a source of chance, the data, and other data of the same kind."""
import re

NUMBERS = b"0 -0 -1 1 2 9 10 16 64 127 128 255 256 300 32768 65535 65536 86400 131072 262144 604800 524288 4194304 2147483647 2147483648 4294967295".split()
NUMBERS += b"4294967296 9007199254740993 9223372036854775807 9223372036854775808 18446744073709551615 18446744073709551616 253402300799".split()
NUMBERS += b"253402300800 00 01 1.0 1e0 1e308 1e999 0.5 null true \"\" [] {}".split() + [b"9" * 400]
WHOLE = (0, 1, 0x7F, 0x80, 0xFF, 0x100, 0xFFFF, 0x10000, 0x1FFFFF, 0x200000, 0x3FFFFF, 0x400000, 0x7FFFFFFF, 0xFFFFFFFF, 2**63, 2**64 - 1)
PIECES = [bytes([byte]) for byte in (*range(0, 32), 0x7F, 0x80, 0xC0, 0xED, 0xEF, 0xF4, 0xFF)] + b'" " { } [ ] : , \\ \\" }} ]] \\u0000 \\ud800 \\u00e9 null true'.split()
PIECES += [b"\xed\xa0\x80", b"\xf4\x90\x80\x80", b"\xef\xbb\xbf", "é".encode(), "\U0001f525".encode(), b"\r\n\r\n", b"\x01", b"\x02", b"\x03", b"\x04", b"[" * 130]
PIECES += [b"a" * 33, b"a" * 300, b"0" * 70, b" " * 9]
DIGITS = re.compile(rb"\d+")


def place_in(chance, data):
    return int(chance.random() * (len(data) + 1))


def piece(chance, data):
    """The two ends of a piece of up to 16 bytes, now and then of any length."""
    at = place_in(chance, data)
    most = len(data) - at if chance.random() < 0.1 else min(16, len(data) - at)
    return at, at + int(chance.random() * (most + 1))


def flip(chance, data, other):
    if not data:
        return data
    at = int(chance.random() * len(data))
    return data[:at] + bytes([data[at] ^ 1 << int(chance.random() * 8)]) + data[at + 1 :]


def exchange(chance, data, other):
    at = place_in(chance, data)
    return data[:at] + bytes([int(chance.random() * 256)]) + data[at + 1 :]


def insert(chance, data, other):
    at = place_in(chance, data)
    return data[:at] + chance.choice(PIECES) + data[at:]


def delete(chance, data, other):
    at, end = piece(chance, data)
    return data[:at] + data[end:]


def duplicate(chance, data, other):
    at, end = piece(chance, data)
    return data[:end] + data[at:end] * (1 + int(chance.random() * 3)) + data[end:]


def swap(chance, data, other):
    at, end = piece(chance, data)
    first, last = piece(chance, other)
    return data[:at] + other[first:last] + data[end:]


def cut(chance, data, other):
    at = place_in(chance, data)
    return data[:at] if chance.random() < 0.8 else data[at:]


def number(chance, data, other):
    found = DIGITS.search(data, place_in(chance, data)) or DIGITS.search(data)
    return data[: found.start()] + chance.choice(NUMBERS) + data[found.end() :] if found else data


def whole(chance, data, other):
    """A number of one, two, four or eight bytes."""
    at, size = place_in(chance, data), chance.choice((1, 2, 4, 8))
    return data[:at] + (chance.choice(WHOLE) % 256**size).to_bytes(size, "big") + data[at + size :]


TEXT = (flip, exchange, insert, delete, duplicate, swap, cut, number, number)
BINARY = (flip, exchange, insert, delete, duplicate, swap, cut, whole, whole)


def mutated(chance, data, other, ways=TEXT):
    """The data behind a few mutations; now and then nothing but random bytes."""
    draw = chance.random()
    if draw < 0.005:
        return chance.randbytes(int(chance.random() * 300))
    for _ in range(1 if draw < 0.6 else 2 if draw < 0.85 else 5):
        data = chance.choice(ways)(chance, data, other)
    return data
