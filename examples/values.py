#!/usr/bin/env python3
"""Prints what main-operands.c prints, by docs/LANGUAGE.md and without the program: a table to compare with.

It reads rv32-operands.decode by itself, tries the patterns one after another, and works out each value from the bits.
It knows only what this file needs, and checks no rule.
"""
import os
import re

FUNCTIONS = {"ex_shift_1": lambda n: n * 2, "ex_shift_12": lambda n: n * 4096}


def in_range(ctype, number):
    """What an argument of this type holds of a number."""
    bits = 32 if ctype == "int" else int(re.search(r"\d+", ctype).group())
    number %= 1 << bits
    signed = not ctype.startswith("u")
    return number - (1 << bits) if signed and number >> (bits - 1) else number


def value_of(field, word):
    """The number of a field, given by its segments and its function, on a word."""
    segments, function = field
    number = total = 0
    for place, length, _ in segments:
        number = number << length | word >> place & (1 << length) - 1
        total += length
    if segments[0][2] and number >> (total - 1):
        number -= 1 << total
    return FUNCTIONS[function](in_range("int", number)) if function else number


def read(path):
    """The sets and the patterns of a file: name, mask, bits, the name of the set, and the fields of the arguments."""
    fields, sets, patterns = {}, {}, []
    for line in open(path, encoding="ascii"):
        first, *rest = line.split("#")[0].split() or [""]
        if first.startswith("%"):
            segments = [re.fullmatch(r"(\d+):(s?)(\d+)", t) for t in rest if not t.startswith("!")]
            function = [t.split("=")[1] for t in rest if t.startswith("!")]
            fields[first[1:]] = (
                [(int(s[1]), int(s[3]), bool(s[2])) for s in segments],
                function[0] if function else None,
            )
        elif first.startswith("&"):
            members = [t.split(":") for t in rest if not t.startswith("!")]
            sets[first[1:]] = [(m[0], m[1] if len(m) > 1 else "int") for m in members]
        elif first:
            patterns.append(pattern(first, rest, fields))
    return sets, patterns


def pattern(name, tokens, fields):
    bits, own_set, given = "", None, {}
    for token in tokens:
        if token.startswith("&"):
            own_set = token[1:]
        elif token.startswith("%"):
            given[token[1:]] = fields[token[1:]]
        elif "=" in token:
            argument, field = token.split("=")
            given[argument] = fields[field[1:]]
        elif ":" in token:
            argument, length = token.split(":")
            length, sign = int(length.lstrip("s")), length.startswith("s")
            given[argument] = ([(32 - len(bits) - length, length, sign)], None)
            bits += "." * length
        else:
            bits += token
    mask = int("".join("1" if b in "01" else "0" for b in bits), 2)
    return name, mask, int("".join("1" if b == "1" else "0" for b in bits), 2), own_set, given


def main():
    sets, patterns = read(os.path.join(os.path.dirname(os.path.abspath(__file__)), "rv32-operands.decode"))
    opcodes = [0x37, 0x17, 0x6F, 0x67, 0x63, 0x03, 0x23, 0x13, 0x0F]
    random = 1
    for i in range(450):
        random = (random * 1664525 + 1013904223) % (1 << 32)
        word = random & ~0x7F | opcodes[i % 9]
        if i % 2 == 0:
            word = word & 0x01FFFFFF | (0x40000000 if i % 4 == 0 else 0)
        for name, mask, bits, own_set, given in patterns:
            if word & mask == bits:
                # A pattern without a set has one of its own, of type int, or that of the first with its arguments.
                first = next((list(p[4]) for p in patterns if p[3] is None and set(p[4]) == set(given)), [])
                members = sets[own_set] if own_set else [(argument, "int") for argument in first]
                values = (f" {a}={in_range(t, value_of(given[a], word))}" for a, t in members)
                print(f"{word:08x}: {name}{''.join(values)}")
                break
        else:
            print(f"{word:08x}: nothing")


main()
