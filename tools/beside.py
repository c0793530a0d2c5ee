#!/usr/bin/env python3
"""Times crate `bench` beside a plain Python program that splits the same polynomials, and prints the ratios.

    (cd crates/bench && rt run) && tools/beside.py [PATH/OF/BENCH]

For each line of `bench time` it forms the same polynomial and splits it here by the same method, written in plain Python with no
package: rows X^(iq) less X^i modulo f, elimination, and a search for the shift. Sums and products over the orders 256 and 65,536 are
read from tables, which are made before the clock starts. Where sympy is there, its factor_list over the prime fields is timed too.
All are timed in the same run, by turns, in several rounds, and the shortest time of each counts. It also sees to it that all find as
many factors.
"""
import os
import subprocess
import sys
import time

FRAME_CHECK = [1, 0, 0, 0, 0, 1, 0, 0, 0, 0, 0, 0, 1, 0, 0, 0, 1]
GENERATOR = [1, 91, 127, 86, 16, 30, 13, 235, 97, 165, 8, 42, 54, 86, 171, 32, 113, 32, 171, 86, 54, 42, 8, 165, 97, 235, 13, 30, 16,
             86, 127, 91, 1]


# ---------------------------------------------------------------- fields

class Prime:
    def __init__(self, p):
        self.order = p
        self.inverses = [0] + [pow(a, p - 2, p) for a in range(1, p)]

    def less(self, u, c, v):
        """u - c v, place by place."""
        p = self.order
        return [(x - c * y) % p for x, y in zip(u, v)]

    def scale(self, c, v):
        p = self.order
        return [c * y % p for y in v]

    def value(self, f, x):
        p, r = self.order, 0
        for c in reversed(f):
            r = (r * x + c) % p
        return r

    def fold(self, n, c):
        return n * c % self.order

    def inverse(self, a):
        return self.inverses[a]

    def opposite(self, a):
        return -a % self.order

    def root(self, f):
        """The polynomial whose p-th power f is."""
        return f[::self.order]


class Tables:
    """A field of even order by powers of a primitive element: exclusive or, and exponents that add up."""

    def __init__(self, order, product):
        self.order, n = order, order - 1
        for g in range(2, order):
            powers, x = [], 1
            for _ in range(n):
                powers.append(x)
                x = product(g, x)
                if x == 1:
                    break
            if len(powers) == n:
                break
        self.powers = powers * 2 + [0] * (2 * n + 1)
        self.exponents = [2 * n] * order
        for i, a in enumerate(powers):
            self.exponents[a] = i

    def less(self, u, c, v):
        if not c:
            return u
        P, E = self.powers, self.exponents
        e = E[c]
        return [x ^ P[e + E[y]] for x, y in zip(u, v)]

    def scale(self, c, v):
        P, E = self.powers, self.exponents
        e = E[c]
        return [P[e + E[y]] for y in v]

    def value(self, f, x):
        P, E, r = self.powers, self.exponents, 0
        e = E[x]
        for c in reversed(f):
            r = P[E[r] + e] ^ c
        return r

    def fold(self, n, c):
        return c if n % 2 else 0

    def inverse(self, a):
        return self.powers[self.order - 1 - self.exponents[a]]

    def opposite(self, a):
        return a

    def root(self, f):
        n = self.order - 1
        return [self.powers[self.exponents[a] * self.order // 2 % n] if a else 0 for a in f[::2]]


def symbol_product(a, b):
    r = 0
    for i in range(8):
        if b >> i & 1:
            r ^= a << i
    for i in range(14, 7, -1):
        if r >> i & 1:
            r ^= 0x187 << i - 8
    return r


def tower_product(symbols):
    """The product modulo t^2 + t + 2 over the symbols."""
    P, E = symbols.powers, symbols.exponents

    def product(a, b):
        a0, a1, b0, b1 = a & 255, a >> 8, b & 255, b >> 8
        top = P[E[a1] + E[b1]]
        low = P[E[a0] + E[b0]] ^ P[E[2] + E[top]]
        return low | (P[E[a0] + E[b1]] ^ P[E[a1] + E[b0]] ^ top) << 8
    return product


# ---------------------------------------------------------------- polynomials

def trim(v):
    while len(v) > 1 and v[-1] == 0:
        v.pop()
    return v


def divide(F, f, g):
    d, rest = len(g) - 1, list(f)
    top, quotient = F.inverse(g[-1]), [0] * max(1, len(f) - d)
    for i in range(len(f) - 1 - d, -1, -1):
        c = F.scale(top, [rest[i + d]])[0]
        quotient[i] = c
        if c:
            rest[i:i + d + 1] = F.less(rest[i:i + d + 1], c, g)
    return quotient, trim(rest[:d] or [0])


def gcd(F, f, g):
    while g != [0]:
        f, g = g, divide(F, f, g)[1]
    return F.scale(F.inverse(f[-1]), f)


def times_x(F, f, row, n=1):
    """X^n times a row modulo f."""
    low = f[:-1]
    for _ in range(n):
        top = row[-1]
        row = [0] + row[:-1]
        if top:
            row = F.less(row, top, low)
    return row


def times(F, f, left, right):
    """The product of two rows modulo f."""
    row = [0] * len(left)
    for c in reversed(left):
        row = times_x(F, f, row)
        if c:
            row = F.less(row, F.opposite(c), right)
    return row


def power(F, f, n):
    """The row of X^n modulo f."""
    row = [1] + [0] * (len(f) - 2)
    for bit in bin(n)[2:]:
        row = times(F, f, row, row)
        if bit == "1":
            row = times_x(F, f, row)
    return row


# ---------------------------------------------------------------- splitting

def first_relation(F, rows):
    """The coefficients of the first row that is a combination of those before it, the last one being 1; none if there is none."""
    held = []
    for e, row in enumerate(rows):
        combination = [0] * e + [1]
        for pivot, image, parts in held:
            c = row[pivot]
            if c:
                row = F.less(row, c, image)
                combination[:len(parts)] = F.less(combination[:len(parts)], c, parts)
        pivot = next((i for i, c in enumerate(row) if c), None)
        if pivot is None:
            return combination
        c = F.inverse(row[pivot])
        held.append((pivot, F.scale(c, row), F.scale(c, combination)))
    return None


def matrix(F, f):
    """X^(iq) - X^i modulo f, for i from 1 on."""
    d, q = len(f) - 1, F.order
    x, row = power(F, f, q), [1] + [0] * (d - 1)
    for i in range(1, d):
        row = times_x(F, f, row, q) if q <= d else times(F, f, row, x)
        unit = [0] * d
        unit[i] = 1
        yield F.less(row, 1, unit)


def powers(F, f, Q):
    row = [1] + [0] * (len(f) - 2)
    while True:
        yield row
        row = times(F, f, row, Q)


def smallest_shift(F, f, Q):
    """The smallest code at which the first relation among the powers of Q is zero."""
    row = Q + [0] * (len(f) - 1 - len(Q))
    sieve = first_relation(F, powers(F, f, row))
    return next(w for w in range(F.order) if F.value(sieve, w) == 0)


def pieces(F, f):
    """What a step replaces f by; none if it does not split."""
    df = trim([F.fold(i, f[i]) for i in range(1, len(f))])
    if df == [0]:
        return [F.root(f)]
    g = gcd(F, f, df)
    if len(g) == 1:
        relation = first_relation(F, matrix(F, f))
        if relation is None:
            return []
        Q = [0] + relation
        w = smallest_shift(F, f, Q)
        g = gcd(F, f, F.less(Q, w, [1] + [0] * (len(Q) - 1)))
    return [g, divide(F, f, g)[0]]


def split(F, f):
    """How many different factors f has."""
    found, todo = set(), [f]
    while todo:
        f = todo.pop()
        got = pieces(F, f)
        if not got:
            found.add(tuple(f))
        todo += got
    return len(found)


# ---------------------------------------------------------------- the set

def drawn(q, codes):
    x, out = 1, []
    for _ in range(codes):
        x = (1103515245 * x + 12345) % 2 ** 32
        out.append((x >> 16) % q)
    return out[:-1] + [1]


def linear(F):
    f = [1]
    for a in range(1, 128):
        f = F.less([0] + f, a, f + [0])
    return f


def polynomial(F, name, degree):
    if name == "frame check":
        return FRAME_CHECK
    if name == "code generator":
        return GENERATOR
    if name == "linear factors":
        return linear(F)
    return drawn(F.order, degree + 1)


def fields():
    symbols = Tables(256, symbol_product)
    made = {p: Prime(p) for p in (2, 3, 251)}
    made[256] = symbols
    made[65536] = Tables(65536, tower_product(symbols))
    return made


# ---------------------------------------------------------------- times

ROUNDS = 5


class Best:
    """The shortest time of several rounds, and the count of factors."""

    def __init__(self):
        self.time = self.parts = None

    def take(self, t, parts):
        self.time = t if self.time is None else min(self.time, t)
        self.parts = parts

    def run(self, call):
        """Takes one run, or several where a run is short."""
        spent, runs = 0.0, 0
        while runs == 0 or (spent < 0.1 and runs < 20):
            start = time.perf_counter()
            parts = call()
            t = time.perf_counter() - start
            self.take(t, parts)
            spent, runs = spent + t, runs + 1


def by_sympy(f, p):
    """What has sympy factor f over a prime field; none where sympy is not there."""
    try:
        import sympy
    except ImportError:
        return None
    poly = sympy.Poly(f[::-1], sympy.Symbol("X"), modulus=p)
    return lambda: len(poly.factor_list()[1])


class Line:
    """A line of bench, with the times of the three."""

    def __init__(self, made, name, order, degree):
        F = made[order]
        f = polynomial(F, name, degree)
        self.title = "%s, %d, %d" % (name, order, degree)
        self.bench, self.here, self.other = Best(), Best(), Best()
        self.split = lambda: split(F, f)
        self.factor = by_sympy(f, order) if isinstance(F, Prime) else None

    def round(self):
        self.here.run(self.split)
        if self.factor:
            self.other.run(self.factor)

    def agrees(self):
        return self.bench.parts == self.here.parts and self.other.parts in (None, self.bench.parts)


def read(bench):
    """The lines that bench prints: name, order, degree, parts and seconds."""
    text = subprocess.run([bench, "time"], stdout=subprocess.PIPE, check=True).stdout.decode()
    for line in text.splitlines():
        name, rest = line.split(": ")
        words = rest.split()
        yield name, int(words[1]), int(words[3]), int(words[7]), int(words[9]) / 1e9


def measured(bench):
    made, lines = fields(), {}
    for _ in range(ROUNDS):
        for name, order, degree, parts, t in read(bench):
            key = name, order, degree
            if key not in lines:
                lines[key] = Line(made, *key)
            lines[key].bench.take(t, parts)
        for line in lines.values():
            line.round()
    return list(lines.values())


def shown(x):
    """A number, rounded to two digits."""
    return "{:,.10g}".format(float("%.2g" % x))


def ratio(t, other):
    """As a number, or as one over a number."""
    if other is None:
        return "-"
    return "1 / " + shown(other / t) if other > t else shown(t / other)


def main(argv):
    here = os.path.dirname(os.path.dirname(os.path.abspath(__file__)))
    lines = measured(argv[0] if argv else os.path.join(here, "crates", "bench", "out", "bench"))
    print("name, order, degree: time of bench to that of its first line; to that of this program; to that of sympy")
    for line in lines:
        t = line.bench.time
        print("%s: %s; %s; %s%s" % (line.title, ratio(t, lines[0].bench.time), ratio(t, line.here.time), ratio(t, line.other.time),
                                    "" if line.agrees() else "   NOT AS MANY FACTORS"))
    return 0 if all(line.agrees() for line in lines) else 1


if __name__ == "__main__":
    sys.exit(main(sys.argv[1:]))
