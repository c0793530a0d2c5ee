#!/usr/bin/env python3
"""Writes a job, as bytes on standard output, from a readable description.

    tools/job.py FIELD [: POLYNOMIAL]... > NAME.job

FIELD is one of

    prime P             the prime field of order P
    symbols             the symbol field of order 256

followed by at most two of

    extension K M       the extension by t^K plus the polynomial of the number M in base b, the order below

Each POLYNOMIAL is one of

    CODE CODE ...       its codes, the constant first
    powers N N ...      the sum of these powers of X
    crc WIDTH NUMBER    X^WIDTH plus the polynomial whose coefficient at X^i is bit i of NUMBER: the notation of a CRC in which the
                        highest power is left out and the highest bit stands first

Numbers are in base ten, or hexadecimal after 0x. Examples:

    tools/job.py prime 2 : crc 16 0x1021 > frame-check.job
    tools/job.py prime 3 : 1 2 0 0 0 0 1 0 0 1 > order-3.job
    tools/job.py prime 2 extension 2 3 : 2 0 1 : powers 4 2 0 > order-4.job

It asks only that each number fits its bytes. Whether the job is a good one, the job program says.
"""
import sys


class Misfit(Exception):
    pass


def number(word, most):
    try:
        n = int(word, 0)
    except ValueError:
        raise Misfit("no number: %s" % word)
    if not 0 <= n <= most:
        raise Misfit("not from 0 to %d: %s" % (most, word))
    return n


def two(n):
    """A number of two bytes, the low one first."""
    return bytes([n & 255, n >> 8])


def numbers(words, count, name, most):
    if len(words) < count:
        raise Misfit("%s wants %d numbers" % (name, count))
    return [number(w, most) for w in words[:count]]


def levels(words):
    """The section of the field's levels."""
    count, out = 0, b""
    while words:
        name, words = words[0], words[1:]
        if name == "prime":
            out += bytes([1] + numbers(words, 1, name, 255))
            words = words[1:]
        elif name == "symbols":
            out += bytes([2])
        elif name == "extension":
            k, m = numbers(words, 2, name, 65535)
            out += bytes([3, number(str(k), 255)]) + two(m)
            words = words[2:]
        else:
            raise Misfit("no field: %s" % name)
        count += 1
    return bytes([number(str(count), 255)]) + out


def codes(words):
    """The codes of a polynomial, the constant first."""
    if words[:1] == ["powers"]:
        powers = [number(w, 254) for w in words[1:]]
        return [powers.count(i) for i in range(max(powers, default=0) + 1)]
    if words[:1] == ["crc"]:
        if len(words) != 3:
            raise Misfit("crc wants a width and a number")
        width = number(words[1], 254)
        low = number(words[2], 2 ** width - 1)
        return [low >> i & 1 for i in range(width)] + [1]
    return [number(w, 65535) for w in words]


def polynomial(words):
    """The record of a polynomial."""
    f = codes(words)
    return bytes([number(str(len(f)), 255)]) + b"".join(two(c) for c in f)


def job(words):
    """The bytes of a job."""
    pieces = [[]]
    for w in words:
        if w == ":":
            pieces.append([])
        else:
            pieces[-1].append(w)
    records = [polynomial(p) for p in pieces[1:]]
    return levels(pieces[0]) + bytes([number(str(len(records)), 255)]) + b"".join(records)


def main(words):
    if not words or words[0] in ("-h", "--help"):
        print(__doc__)
        return 0
    try:
        out = job(words)
    except Misfit as e:
        print("job.py: %s" % e, file=sys.stderr)
        return 1
    sys.stdout.buffer.write(out)
    return 0


if __name__ == "__main__":
    sys.exit(main(sys.argv[1:]))
