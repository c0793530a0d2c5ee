#!/usr/bin/env python3
"""Prints the jobs that crate `replay` is run on, one to a line, in hexadecimal.

    tools/jobs.py > crates/replay/stdin

They are the same at each run. There are good jobs over every kind of field, and jobs with one thing wrong at every place where it
can be wrong. It writes bytes and knows nothing of what becomes of them, but that it multiplies polynomials, to have some with
repeated factors.
"""

# fields as the levels of a job: a prime field is (1, p), the symbol field (2,), an extension (3, k, m); no modulus here splits
PRIMES = (2, 3, 5, 7, 11, 13, 31, 101, 127, 199, 251)
SYMBOLS = (2,)
THREE_LEVELS = [(1, 2), (3, 2, 3), (3, 2, 6)]
TOWERS = [
    # on order 2
    [(1, 2), (3, 2, 3)], [(1, 2), (3, 3, 3)], [(1, 2), (3, 4, 9)], [(1, 2), (3, 5, 5)], [(1, 2), (3, 8, 27)], [(1, 2), (3, 10, 9)],
    [(1, 2), (3, 16, 43)],
    # on other primes
    [(1, 3), (3, 2, 8)], [(1, 3), (3, 3, 7)], [(1, 3), (3, 5, 7)], [(1, 3), (3, 10, 19)], [(1, 5), (3, 2, 2)], [(1, 5), (3, 4, 2)],
    [(1, 7), (3, 2, 1)], [(1, 7), (3, 5, 10)], [(1, 13), (3, 3, 2)], [(1, 101), (3, 2, 2)], [(1, 251), (3, 2, 1)],
    # on the symbol field
    [SYMBOLS, (3, 2, 258)], [SYMBOLS, (3, 2, 271)],
    # of three levels
    THREE_LEVELS, [(1, 2), (3, 2, 3), (3, 3, 2)], [(1, 2), (3, 2, 3), (3, 4, 25)], [(1, 2), (3, 2, 3), (3, 6, 22)],
    [(1, 2), (3, 3, 3), (3, 2, 9)], [(1, 2), (3, 4, 3), (3, 2, 24)], [(1, 2), (3, 4, 3), (3, 4, 292)], [(1, 3), (3, 2, 8), (3, 2, 3)],
    [(1, 3), (3, 2, 8), (3, 5, 12)], [(1, 5), (3, 2, 2), (3, 3, 6)], [(1, 7), (3, 2, 1), (3, 2, 9)],
]


class Draw:
    """Numbers by a fixed recurrence."""

    def __init__(self, seed):
        self.x = seed

    def below(self, n):
        self.x = (self.x * 6364136223846793005 + 1442695040888963407) % 2 ** 64
        return (self.x >> 33) % n

    def codes(self, q, degree, monic=False):
        last = 1 if monic else 1 + self.below(q - 1)
        return [self.below(q) for _ in range(degree)] + [last]


# ---------------------------------------------------------------- products

def digits(a, b, k):
    return [a // b ** i % b for i in range(k)]


def order(levels):
    q = 256 if levels[0] == SYMBOLS else levels[0][1]
    for _, k, _ in levels[1:]:
        q **= k
    return q


def plus(levels, a, b):
    if levels == [SYMBOLS]:
        return a ^ b
    if len(levels) == 1:
        return (a + b) % levels[0][1]
    below, (_, k, _) = levels[:-1], levels[-1]
    q = order(below)
    return sum(plus(below, x, y) * q ** i for i, (x, y) in enumerate(zip(digits(a, q, k), digits(b, q, k))))


def minus(levels, a):
    """The opposite: the sum of p - 1 times a."""
    p, r = 2 if levels[0] == SYMBOLS else levels[0][1], 0
    for _ in range(p - 1):
        r = plus(levels, r, a)
    return r


def times(levels, a, b):
    """A product of codes, by definition: of polynomials in t, less multiples of the modulus."""
    if levels == [SYMBOLS]:
        return times([(1, 2), (3, 8, 0x87)], a, b)
    if len(levels) == 1:
        return a * b % levels[0][1]
    below, (_, k, m) = levels[:-1], levels[-1]
    q = order(below)
    row = product(below, digits(a, q, k), digits(b, q, k))
    for i in range(2 * k - 2, k - 1, -1):
        top = minus(below, row[i])
        for j, c in enumerate(digits(m, q, k)):
            row[i - k + j] = plus(below, row[i - k + j], times(below, top, c))
    return sum(c * q ** i for i, c in enumerate(row[:k]))


def product(levels, f, g):
    out = [0] * (len(f) + len(g) - 1)
    for i, x in enumerate(f):
        for j, y in enumerate(g):
            out[i + j] = plus(levels, out[i + j], times(levels, x, y))
    return out


def power(levels, f, n):
    out = [1]
    for _ in range(n):
        out = product(levels, out, f)
    return out


# ---------------------------------------------------------------- bytes

def two(n):
    return bytes([n & 255, n >> 8])


def level(lv):
    return bytes(lv[:2]) + (two(lv[2]) if len(lv) == 3 else b"")


def record(f):
    return bytes([len(f)]) + b"".join(map(two, f))


def field(levels):
    return bytes([len(levels)]) + b"".join(map(level, levels))


def job(levels, polynomials=()):
    return field(levels) + bytes([len(polynomials)]) + b"".join(map(record, polynomials))


# ---------------------------------------------------------------- good jobs

def spread(f, p):
    """f with X^p in the place of X."""
    out = [0] * (p * (len(f) - 1) + 1)
    out[::p] = f
    return out


def degrees(levels):
    """Degrees of products of two, small where the order is large."""
    q = order(levels)
    return (9, 4) if q <= 300 else (6, 4) if q <= 5000 else (4, 2)


def over(levels, draw):
    """Good jobs over one field."""
    q, p = order(levels), 2 if levels[0] == SYMBOLS else levels[0][1]
    a, b = degrees(levels)
    yield job(levels, [draw.codes(q, a)])
    yield job(levels, [product(levels, draw.codes(q, 1, True), draw.codes(q, 1, True)), draw.codes(q, b)])
    square = power(levels, draw.codes(q, 1, True), 2)
    yield job(levels, [product(levels, square, draw.codes(q, b - 1))])
    if p <= 7:
        yield job(levels, [spread(draw.codes(q, 2), p)])
    else:
        f = draw.codes(q, 2)
        yield job(levels, [f, f, draw.codes(q, 0), f])


def good():
    draw = Draw(1)
    for p in PRIMES:
        yield from over([(1, p)], draw)
    yield from over([SYMBOLS], draw)
    for levels in TOWERS:
        yield from over(levels, draw)
    yield from plain(draw)
    yield from long(draw)


def plain(draw):
    """No polynomial, constants only, X alone, many equal ones, examples that are known."""
    for levels in [[(1, 2)], [(1, 251)], [SYMBOLS]] + TOWERS[::6]:
        q = order(levels)
        yield job(levels)
        yield job(levels, [draw.codes(q, 0) for _ in range(3)])
        yield job(levels, [[0, 1], [draw.below(q - 1) + 1], [0, 0, 0, 1]])
    yield job([(1, 3)], [[1, 2, 0, 0, 0, 0, 1, 0, 0, 1]])
    yield job([(1, 5)], [[1, 0, 1]])
    yield job([(1, 3)], [[2, 2, 1, 1]])
    yield job([(1, 2)], [[1, 0, 1, 0, 1]])
    yield job([(1, 2), (3, 2, 3)], [[1, 1, 1], [2, 0, 1]])
    yield job([(1, 2)], [[1, 0, 0, 0, 0, 1, 0, 0, 0, 0, 0, 0, 1, 0, 0, 0, 1]])
    yield job([(1, 3)], [[2]] * 127)
    yield job([(1, 3)], [[1, 2]] * 127)
    yield job([(1, 7)], [[i % 7, 1] for i in range(127)])


def long(draw):
    """Total degree 127, over orders that make it cheap."""
    yield job([(1, 3)], [[0] * 127 + [1]])
    yield job([(1, 2)], [draw.codes(2, 127)])
    yield job([(1, 3)], [draw.codes(3, 127)])
    yield job([(1, 2)], [[1] * 128])
    yield job([(1, 127)], [[126] + [0] * 126 + [1]])
    yield job([(1, 2)], [[1] + [0] * 62 + [1], [1] + [0] * 63 + [1]])
    yield job([(1, 2), (3, 2, 3)], [draw.codes(4, 64), draw.codes(4, 63)])
    yield job([(1, 5)], [[4] + [0] * 124 + [1], [3, 1], [2, 1]])


# ---------------------------------------------------------------- refused jobs

def cuts():
    """Cut after each byte."""
    for whole in (job([(1, 3)], [[1, 0, 1], [2]]), job(THREE_LEVELS, [[5, 1]]), job([SYMBOLS], [[255, 1]])):
        for n in range(len(whole)):
            yield whole[:n]
    yield job([(1, 2)], [[1] * 128])[:-1]


def judged():
    """A count, a kind or a length that is not allowed, at each place of one; where more would be wrong too, the first counts."""
    tower, poly = THREE_LEVELS, [1, 1]
    for n in (0, 4, 255):
        yield bytes([n])
        yield bytes([n]) + job([(1, 3)], [poly])[1:]
    for at, kinds in ((1, (0, 3, 4, 255)), (3, (0, 1, 2, 4)), (7, (0, 1, 2, 255))):
        for kind in kinds:
            whole = bytearray(job(tower, [poly]))
            whole[at] = kind
            yield bytes(whole)
            yield bytes(whole[:at + 1])
    for levels in ([(1, 3)], [SYMBOLS], tower):
        for n in (128, 255):
            yield field(levels) + bytes([n])
            yield field(levels) + bytes([n]) + record(poly)
        for n in (0, 129, 255):
            yield field(levels) + bytes([1, n])
            yield field(levels) + bytes([2]) + record(poly) + bytes([n]) + record(poly)


def left_over():
    for whole in (job([(1, 3)]), job([SYMBOLS], [[3]]), job([(1, 2), (3, 2, 3)], [[1, 1, 1], [3, 1]]),
                  job([(1, 3)], [[0] * 127 + [1]])):
        yield whole + b"\0"
        yield whole + b"\1\2\3"


def fields_refused():
    """A level that is refused below."""
    for p in (0, 1, 4, 9, 91, 253, 254, 255):
        yield bytes([1, 1, p])
        yield job([(1, p)], [[1, 1]])
    below = [([(1, 2)], 17, 4, 1), ([(1, 3)], 11, 9, 0), ([(1, 251)], 3, 251 ** 2, 0), ([SYMBOLS], 3, 0, 0),
             ([(1, 2), (3, 2, 3)], 9, 16, 5), ([(1, 251), (3, 2, 1)], 2, 0, 0), ([SYMBOLS, (3, 2, 258)], 2, 0, 0)]
    for levels, too_high, too_large, splits in below:
        for k in (0, 1, 17, 255):
            yield job(levels + [(3, k, 3)], [[1, 1]])
        yield job(levels + [(3, too_high, 1)], [[1]])
        yield job(levels + [(3, 16, 65535)])
        yield job(levels + [(3, 2, too_large)])
        yield job(levels + [(3, 2, 65535)])
        yield job(levels + [(3, 2, splits)], [[0]])
    for m in (0, 1, 2):
        yield job([(1, 2), (3, 2, m)])
        yield job([(1, 2), (3, 2, m), (3, 0, 0)])
    for k, m in ((3, 0), (4, 5), (8, 255), (16, 1), (16, 0)):
        yield job([(1, 2), (3, k, m)])


def polynomials_refused():
    """A polynomial that is refused below, alone and behind a good one."""
    for levels in [[(1, 2)], [(1, 251)], [SYMBOLS], [(1, 3), (3, 2, 8)], THREE_LEVELS, [(1, 2), (3, 16, 43)]]:
        q = order(levels)
        bad = [[0, 0], [1, 0], [0] * 128, [0]]
        if q <= 65535:
            bad += [[q, 1], [1, q], [65535], [1, 0, q, q + 1, 1], [0] * 127 + [q], [q, 0], [1, q, 0]]
        for f in bad:
            yield job(levels, [f])
            yield job(levels, [[1, 1], [1], f, [0]])
            yield job(levels, [f]) + b"\0"
    for first, second in ((127, 1), (1, 127), (64, 64), (100, 28)):
        yield job([(1, 3)], [[0] * first + [1], [0] * second + [2]])
    yield job([(1, 2)], [[1, 1]] * 126 + [[1, 1, 1]])
    yield job([(1, 2)], [[0] * 127 + [1], [1], [0, 1], [0]])
    yield job([(1, 2)], [[0] * 127 + [1], [0, 2]])
    yield job([(1, 2)], [[0] * 127 + [1], [1, 0]])
    yield job([(1, 2)], [[0] * 127 + [1], [0, 1]]) + b"\0"


def damaged():
    """Good jobs with one byte changed."""
    draw = Draw(2)
    for whole in (job([(1, 3)], [[1, 2, 0, 1], [2, 1]]), job([SYMBOLS], [[7, 0, 9, 1]]), job([(1, 2), (3, 2, 3)], [[2, 1, 3, 1]]),
                  job([(1, 5), (3, 2, 2), (3, 2, 5)], [[600, 1, 1]])):
        for _ in range(12):
            out = bytearray(whole)
            out[draw.below(len(out))] ^= 1 << draw.below(8)
            yield bytes(out)


def main():
    for jobs in (good(), cuts(), judged(), left_over(), fields_refused(), polynomials_refused(), damaged()):
        for whole in jobs:
            print(whole.hex())


if __name__ == "__main__":
    main()
