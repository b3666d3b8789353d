#!/usr/bin/env python3
"""Prints the tables of crates/qg_crc32c: `rows` those of rows.rt, `bytes` that of byte_tables.rt.

The check proves each entry, so this only says where the numbers come from.
"""
import sys

POLYNOMIAL = 0x82F63B78


def shifts(count, remainder):
    """The remainder after so many more bits of 0."""
    for _ in range(count):
        remainder = (remainder >> 1) ^ (POLYNOMIAL if remainder & 1 else 0)
    return remainder


def four_bytes(remainder, basis):
    """The bytes, one in each of four rows, that together have this remainder."""
    bits = 0
    while remainder:
        value, mask = basis[remainder.bit_length()]
        remainder ^= value
        bits ^= mask
    return [bits >> 8 * row & 0xFF for row in range(4)]


def rows():
    # What each bit of a byte in each of four rows of 32 bytes (256 bits) comes to. No two sets of these 32 come to
    # the same, so any remainder is one of them.
    basis = {}
    for row in range(4):
        for bit in range(8):
            value, mask = shifts(256 * (3 - row), 1 << bit), 1 << 8 * row + bit
            while value.bit_length() in basis:
                other = basis[value.bit_length()]
                value, mask = value ^ other[0], mask ^ other[1]
            basis[value.bit_length()] = value, mask
    for row, name in enumerate(["SECOND", "THIRD", "FOURTH", "NEXT"]):
        for half, worth in ("LOW", 1), ("HIGH", 16):
            table = [four_bytes(shifts(1024, n * worth), basis)[row] for n in range(16)]
            print(f"const {name}_{half}: [u8; 32] = {table + table};")


def bytes_():
    for k in range(8):
        print("[" + ", ".join(f"0x{shifts(8 * (k + 1), b):08X}" for b in range(256)) + "],")


if sys.argv[1:] == ["rows"]:
    rows()
elif sys.argv[1:] == ["bytes"]:
    bytes_()
else:
    sys.exit("usage: bench/crc32c_tables.py rows|bytes")
