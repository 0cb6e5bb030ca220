#!/usr/bin/env python3
"""Compares the program `checks` with Python's binascii.crc_hqx(data, 0xFFFF).

usage: check_vectors.py PATH_TO_checks

`checks` reads strings from standard input (a 2-byte big-endian length, then that many bytes, repeated)
and prints each string's check as 4 hex digits a line. RUNNER, if set, is put in front of the program;
a program for x86-64 is otherwise started with the kit's loader and C library.
"""
import binascii
import os
import random
import shutil
import subprocess
import sys

SEED = 20261115
EACH_LENGTH = 3
# Seconds. A guard against a program that hangs, and no test of speed: the run takes a second or less.
PATIENCE = 120


def runner(program):
    """The words in front of the program."""
    if os.environ.get("RUNNER"):
        return os.environ["RUNNER"].split()
    with open(program, "rb") as file:
        head = file.read(20)
    if not (head[:4] == b"\x7fELF" and head[18:20] == b"\x3e\x00"):  # not for x86-64
        return []
    home = os.environ.get("RATTLE_HOME")
    if not home:
        rt = shutil.which("rt") or "/opt/rattle/bin/rt"
        home = os.path.dirname(os.path.dirname(os.path.realpath(rt)))
    tools = os.path.join(home, "toolchain")
    emulator = os.path.join(tools, "bin", "qemu-x86_64")
    loader = os.path.join(tools, "lib", "ld-linux-x86-64.so.2")
    words = [emulator] if os.path.exists(emulator) else []
    if os.path.exists(loader):
        words += [loader, "--library-path", os.path.join(tools, "lib")]
    return words


def strings():
    """Every length from 0 to 1,024: some at random, all zeros, all ones; and one bit set in a block."""
    chance = random.Random(SEED)
    out = [b"123456789"]
    for length in range(1025):
        out += [chance.randbytes(length) for _ in range(EACH_LENGTH)]
        out += [b"\x00" * length, b"\xff" * length]
    for bit in range(8 * 510):
        block = bytearray(510)
        block[bit // 8] = 0x80 >> bit % 8
        out.append(bytes(block))
    return out


def main():
    if len(sys.argv) != 2:
        sys.exit(__doc__)
    program = os.path.realpath(sys.argv[1])
    given = strings()
    data = b"".join(len(s).to_bytes(2, "big") + s for s in given)
    ended = subprocess.run(runner(program) + [program], input=data, stdout=subprocess.PIPE, timeout=PATIENCE)
    found = ended.stdout.decode("ascii", "replace").split("\n")
    expected = ["%04x" % binascii.crc_hqx(s, 0xFFFF) for s in given] + [""]
    assert expected[0] == "29b1", "the published vector"
    for place, want in enumerate(expected):
        got = found[place] if place < len(found) else "(no such line)"
        if got.lower() != want:
            string = given[place] if place < len(given) else b""
            sys.exit(f"line {place + 1}: {got}, by Python {want}, of {len(string)} bytes: {string.hex()}\nFAILED")
    if len(found) != len(expected) or ended.returncode != 0:
        sys.exit(f"{len(found)} lines for {len(expected)}, status {ended.returncode}\nFAILED")
    print(f"{len(given)} strings of all lengths 0 to 1024 (seed {SEED}): all checks agree with binascii.crc_hqx")


if __name__ == "__main__":
    main()
