"""Pose arithmetic of document 01 in IEEE doubles, step by step in the order of the Rust.

A pose is seven floats: translation x, y, z, then rotation w, x, y, z. Rotations are (w, x, y, z). `product` and
`interpolate` are the steps alone, whatever comes out; an operation tests that by `finite` (M-103).
"""
from math import isfinite, nan, sqrt

EPSILON = 2.0 ** -52
TOLERANCE = 1e-6
IDENTITY = (0.0, 0.0, 0.0, 1.0, 0.0, 0.0, 0.0)
ACOS_TABLE = [((2 * k - 1) ** 2, 2 * k * (2 * k + 1)) for k in range(1, 49)]


class Refusal(Exception):
    """A no: its number, then the data it carries."""


def root(x):
    return sqrt(x) if x >= 0.0 else nan


def acos(d):
    z = root((1.0 - d) / 2.0)
    h = 1.0
    for above, below in reversed(ACOS_TABLE):
        h = 1.0 + ((z * z) * (above / below)) * h
    return 2.0 * (z * h)


def sin(a):
    s = 1.0
    for k in range(10, 0, -1):
        s = 1.0 - ((a * a) / (2 * k * (2 * k + 1))) * s
    return a * s


def clamp(x, low, high):
    return low if x < low else high if x > high else x


def times(a, b):
    """The product of two rotations."""
    aw, ax, ay, az = a
    bw, bx, by, bz = b
    return (
        aw * bw - ax * bx - ay * by - az * bz,
        aw * bx + ax * bw + ay * bz - az * by,
        aw * by - ax * bz + ay * bw + az * bx,
        aw * bz + ax * by - ay * bx + az * bw,
    )


def scale(q, factor):
    return (q[0] * factor, q[1] * factor, q[2] * factor, q[3] * factor)


def conjugate(q):
    return (q[0], -q[1], -q[2], -q[3])


def rotate(q, v):
    return times(times(q, (0.0, *v)), conjugate(q))[1:]


def dot(a, b):
    return a[0] * b[0] + a[1] * b[1] + a[2] * b[2] + a[3] * b[3]


def norm(q):
    return root(dot(q, q))


def blend(a, wa, b, wb):
    return tuple(p * wa + q * wb for p, q in zip(a, b))


def normalize(q):
    n = norm(q)
    if not isfinite(n):
        raise Refusal(13)
    if n < EPSILON:
        raise Refusal(14)
    return scale(q, 1.0 / n)


def slerp(a, b, t):
    t = clamp(t, 0.0, 1.0)
    d = dot(a, b)
    if d < 0.0:
        b = scale(b, -1.0)
        d = -d
    d = clamp(d, -1.0, 1.0)
    if d > 1.0 - EPSILON:
        blended = blend(a, 1.0 - t, b, t)
        n = norm(blended)
        return blended if n < EPSILON else scale(blended, 1.0 / n)
    theta = acos(d)
    whole = sin(theta)
    return blend(a, sin((1.0 - t) * theta) / whole, b, sin(t * theta) / whole)


def seconds(nanos):
    return float(nanos // 1_000_000_000) + float(nanos % 1_000_000_000) / 1e9


def finite(floats):
    """The floats as they are; 3 where one of them is not finite."""
    if not all(map(isfinite, floats)):
        raise Refusal(3)
    return floats


def validate(p):
    finite(p)
    n = norm(p[3:])
    if abs(n - 1.0) > TOLERANCE:
        raise Refusal(4, n)


def product(a, b):
    x, y, z = rotate(a[3:], b[:3])
    return (x + a[0], y + a[1], z + a[2], *times(a[3:], b[3:]))


def inverse(p):
    q = conjugate(normalize(p[3:]))
    v = finite(tuple(-1.0 * c for c in rotate(q, p[:3])))
    return (*v, *q)


def interpolate(a, b, start, end, query):
    if end < start:
        raise Refusal(15)
    if end == start:
        return a
    if query < start:
        raise Refusal(15)
    share = seconds(query - start) / seconds(end - start)
    moved = ((1.0 - share) * p + share * q for p, q in zip(a[:3], b[:3]))
    return (*moved, *slerp(a[3:], b[3:], share))
