#!/usr/bin/env python3
"""Writes the table of block products that crates/arithmetic_tests checks the code against.

The method has nothing in common with doubling and adding: the two polynomials are multiplied coefficient by
coefficient, as lists of exponents, and the product is divided by z^128 + z^7 + z^2 + z + 1 from its highest term down.
"""
import random

MODULUS = (128, 7, 2, 1, 0)


def exponents(n):
    return {i for i in range(n.bit_length()) if n >> i & 1}


def product(a, b):
    terms = set()
    for i in exponents(a):
        for j in exponents(b):
            terms ^= {i + j}
    while terms and max(terms) >= 128:
        shift = max(terms) - 128
        terms ^= {m + shift for m in MODULUS}
    return sum(1 << i for i in terms)


def main():
    top, ones = 1 << 127, (1 << 128) - 1
    chosen = [(0, ones), (1, ones), (ones, 1), (2, top), (top, 2), (top, top), (3, 3), (ones, ones), (0x87, top), (1 << 64, 1 << 64), (1 << 63, 1 << 65)]
    source = random.Random(128)
    drawn = [(source.getrandbits(128), source.getrandbits(128)) for _ in range(13)]
    for a, b in chosen + drawn:
        print(f"    (0x{a:032x}, 0x{b:032x}, 0x{product(a, b):032x}),")


main()
