#!/usr/bin/env python3
"""Prints expected values for the tests, computed from definitions alone.

It shares nothing with the library: sums and products in the field of order 256 are polynomials over bits, reduced by
t^8 + t^7 + t^2 + t + 1 one bit at a time; residues are numbers modulo n.

    python3 tools/expected.py symbols     products and inverses in the symbol field
    python3 tools/expected.py generator   the generator polynomial of the (255,223) Reed-Solomon code
    python3 tools/expected.py rings       sums, products, derivatives and values of polynomials over small rings
    python3 tools/expected.py division    quotients, remainders and common divisors over orders 2, 3, 251 and 256
    python3 tools/expected.py quotients   sums, opposites and products in quotients of rings
    python3 tools/expected.py splitting   one step on a polynomial, by trying all polynomials and all codes
"""
import random
import sys

MODULUS = 0b1_1000_0111


def times(a, b):
    """The product of two symbols: polynomials over bits, less multiples of the modulus."""
    r = 0
    for i in range(8):
        if b >> i & 1:
            r ^= a << i
    for i in range(15, 7, -1):
        if r >> i & 1:
            r ^= MODULUS << (i - 8)
    return r


class Symbols:
    order = 256

    def sum(self, a, b):
        return a ^ b

    def product(self, a, b):
        return times(a, b)


class Residues:
    def __init__(self, n):
        self.order = n

    def sum(self, a, b):
        return (a + b) % self.order

    def product(self, a, b):
        return a * b % self.order


def trim(f):
    while len(f) > 1 and f[-1] == 0:
        f = f[:-1]
    return f


def add(ring, f, g):
    n = max(len(f), len(g))
    at = lambda h, i: h[i] if i < len(h) else 0
    return trim([ring.sum(at(f, i), at(g, i)) for i in range(n)])


def multiply(ring, f, g):
    out = [0] * (len(f) + len(g) - 1)
    for i, a in enumerate(f):
        for j, b in enumerate(g):
            out[i + j] = ring.sum(out[i + j], ring.product(a, b))
    return trim(out)


def fold(ring, n, a):
    r = 0
    for _ in range(n):
        r = ring.sum(r, a)
    return r


def derive(ring, f):
    return trim([fold(ring, i, f[i]) for i in range(1, len(f))] or [0])


def evaluate(ring, f, x):
    r, power = 0, 1
    for a in f:
        r = ring.sum(r, ring.product(a, power))
        power = ring.product(power, x)
    return r


def generator():
    ring = Symbols()
    alpha11 = 1
    for _ in range(11):
        alpha11 = times(alpha11, 2)
    f, root = [1], 1
    for _ in range(112):
        root = times(root, alpha11)
    for _ in range(112, 144):
        f = multiply(ring, f, [root, 1])
        assert evaluate(ring, f, root) == 0
        root = times(root, alpha11)
    return f


class Quotient:
    """Polynomials in t over a ring below t^k, as numbers in base b; the modulus is t^k plus the polynomial of m."""

    def __init__(self, below, k, m):
        self.below, self.k, self.m, self.order = below, k, m, below.order ** k

    def digits(self, x):
        return [x // self.below.order ** i % self.below.order for i in range(self.k)]

    def number(self, ds):
        return sum(d * self.below.order ** i for i, d in enumerate(ds))

    def sum(self, a, b):
        return self.number([self.below.sum(x, y) for x, y in zip(self.digits(a), self.digits(b))])

    def product(self, a, b):
        r = self.below
        out = [0] * (2 * self.k)
        for i, x in enumerate(self.digits(a)):
            for j, y in enumerate(self.digits(b)):
                out[i + j] = r.sum(out[i + j], r.product(x, y))
        lower = self.digits(self.m)
        for i in range(2 * self.k - 1, self.k - 1, -1):
            top = out[i]
            out[i] = 0
            for j, c in enumerate(lower):
                out[i - self.k + j] = r.sum(out[i - self.k + j], opposite(r, r.product(top, c)))
        return self.number(out[: self.k])


def opposite(ring, a):
    return next(b for b in range(ring.order) if ring.sum(a, b) == 0)


def inverse(ring, a):
    return next(b for b in range(ring.order) if ring.product(a, b) == 1)


def scale(ring, c, f):
    return [ring.product(c, a) for a in f]


def divide(ring, f, g):
    u = inverse(ring, g[-1])
    rest, quotient = list(f), [0] * max(1, len(f) - len(g) + 1)
    for i in range(len(f) - len(g), -1, -1):
        c = ring.product(rest[i + len(g) - 1], u)
        quotient[i] = c
        for j, b in enumerate(g):
            rest[i + j] = ring.sum(rest[i + j], opposite(ring, ring.product(c, b)))
    return trim(quotient), trim(rest[: max(1, len(g) - 1)] if len(f) >= len(g) else rest)


def gcd(ring, f, g):
    while g != [0]:
        f, g = g, divide(ring, f, g)[1]
    return f if f == [0] else scale(ring, inverse(ring, f[-1]), f)


def power(ring, a, n):
    r = 1
    for _ in range(n):
        r = ring.product(a, r)
    return r


def characteristic(ring):
    n, r = 1, 1
    while r != 0:
        n, r = n + 1, ring.sum(r, 1)
    return n


def all_lists(q, n):
    if n == 0:
        yield []
    else:
        for rest in all_lists(q, n - 1):
            for a in range(q):
                yield [a] + rest


def step(ring, f):
    """Kind, answer and pieces of one step, straight from the words: all polynomials of lower degree are tried."""
    d, q, p = len(f) - 1, ring.order, characteristic(ring)
    g = derive(ring, f)
    if g == [0]:
        root = trim([power(ring, f[i], q // p) for i in range(0, d + 1, p)])
        return (1, d // p, 0), root, []
    g = gcd(ring, f, g)
    if len(g) > 1:
        h = divide(ring, f, g)[0]
        return (2, len(g) - 1, len(h) - 1), g, h
    for e in range(1, d):
        for low in all_lists(q, e - 1):
            v = [0] + low + [1]
            w = v
            for _ in range(q - 1):
                w = divide(ring, multiply(ring, w, v), f)[1]
            if w == divide(ring, v, f)[1]:
                for shift in range(q):
                    h = gcd(ring, f, add(ring, v, [opposite(ring, shift)]))
                    if len(h) > 1:
                        k = divide(ring, f, h)[0]
                        return (3, len(h) - 1, len(k) - 1), h, k
    return (4, d, 0), [], []


def some(rng, ring, n):
    f = [rng.randrange(ring.order) for _ in range(n)]
    if n > 1:
        f[-1] = rng.randrange(1, ring.order)
    return f


def main():
    rng = random.Random(20)
    what = sys.argv[1] if len(sys.argv) > 1 else ""
    if what == "symbols":
        pairs = [(2, 128), (255, 255), (1, 255), (0, 77)] + [(rng.randrange(256), rng.randrange(256)) for _ in range(28)]
        for a, b in pairs:
            print(f"({a}, {b}, {times(a, b)}),")
        for a in [1, 2, 3, 128, 135, 195, 254, 255] + [rng.randrange(1, 256) for _ in range(8)]:
            print(f"({a}, {next(b for b in range(256) if times(a, b) == 1)}),")
    elif what == "generator":
        print(generator())
    elif what == "rings":
        for n in [2, 3, 4, 6, 251, 256]:
            ring = Residues(n)
            for lengths in [(4, 3), (2, 2), (5, 5), (1, 3)]:
                f, g = (some(rng, ring, k) for k in lengths)
                x = rng.randrange(n)
                print(n, f, g, "sum", add(ring, f, g), "product", multiply(ring, f, g), "derivative", derive(ring, f), "at", x, evaluate(ring, f, x))
    elif what == "division":
        for name, ring in [(2, Residues(2)), (3, Residues(3)), (251, Residues(251)), (256, Symbols())]:
            for lengths in [(6, 3), (4, 4), (2, 5), (7, 1), (5, 2)]:
                f, g = (some(rng, ring, k) for k in lengths)
                g = g if g != [0] else [1]
                c = some(rng, ring, 2)
                q, r = divide(ring, f, g)
                assert add(ring, multiply(ring, q, g), r) == f
                a, b = multiply(ring, f, c), multiply(ring, g, c)
                print(name, f, g, "quotient", q, "remainder", r, "common divisor of", a, b, gcd(ring, a, b))
    elif what == "quotients":
        for n, k, m in [(4, 2, 1), (4, 3, 27), (6, 2, 35), (6, 3, 100), (2, 2, 3), (256, 2, 777)]:
            ring = Quotient(Residues(n), k, m)
            for _ in range(4):
                a, b = rng.randrange(ring.order), rng.randrange(ring.order)
                o = ring.number([opposite(ring.below, x) for x in ring.digits(a)])
                print(n, k, m, a, b, "sum", ring.sum(a, b), "opposite", o, "product", ring.product(a, b))
    elif what == "splitting":
        two, three, five, four = Residues(2), Residues(3), Residues(5), Quotient(Residues(2), 2, 3)
        for name, ring, f in [
            (2, two, [1, 0, 1, 0, 1]), (2, two, [1, 1, 1]), (2, two, [1, 1, 0, 1, 1, 1]), (2, two, [0, 1, 1]), (2, two, [1, 1, 0, 0, 1]), (2, two, [0, 1]),
            (3, three, [2, 2, 1, 1]), (3, three, [1, 0, 1]), (3, three, [1, 0, 0, 1]), (3, three, [1, 2, 0, 0, 0, 0, 1, 0, 0, 1]), (3, three, [1, 1]),
            (5, five, [1, 0, 1]), (5, five, [2, 0, 1]), (5, five, [4, 0, 0, 0, 0, 1]), (5, five, [4, 0, 0, 0, 1]),
            (4, four, [1, 1, 1]), (4, four, [2, 0, 1]), (4, four, [2, 1, 1]), (4, four, [1, 0, 0, 1]),
        ]:
            print(name, f, *step(ring, f))
    else:
        print(__doc__)


main()
