"""Writes the sample sheets beside this file: s1, ring, cut, petals.

A medallion is a ring-shaped mesh: layers of vertices on closed curves, from the inner border (tag 2,
held at 0) to the outer one (tag 1, held at 1). Coordinates are rounded to 1/4096, so that every
machine writes the same bytes.
"""
import math
import pathlib
import struct

OUTER, INNER = 1, 2
LIMIT, TOLERANCE, STEP, START_X, START_Y, ROOM = range(1, 7)


def sheet(vertices, triangles, neighbours, tags, settings):
    """The five sections, each after its count."""
    out = struct.pack('<I', len(vertices)) + b''.join(struct.pack('<2d', *v) for v in vertices)
    out += struct.pack('<I', len(triangles)) + b''.join(struct.pack('<3I', *t) for t in triangles)
    out += struct.pack('<I', len(neighbours)) + b''.join(struct.pack('<i', t) for t in neighbours)
    out += struct.pack('<I', len(tags)) + bytes(tags)
    out += struct.pack('<I', len(settings))
    for kind, value in sorted(settings.items()):
        out += struct.pack('<BQ' if kind in (LIMIT, ROOM) else '<Bd', kind, value)
    return out


def layers(inner, outer, counts):
    """Vertices layer by layer, evenly between two borders; a border gives its point for an angle."""
    vertices = []
    for layer, count in enumerate(counts):
        part = layer / (len(counts) - 1)
        for column in range(count):
            angle = 2 * math.pi * column / count
            (ax, ay), (bx, by) = inner(angle), outer(angle)
            x, y = ax + part * (bx - ax), ay + part * (by - ay)
            vertices.append((round(x * 4096) / 4096, round(y * 4096) / 4096))
    return vertices


def band(first, low, high):
    """Triangles, all counterclockwise, between a layer of `low` vertices from number `first` on and
    the next one of `high`: at each step the layer that is behind in angle moves on."""
    triangles, i, j = [], 0, 0
    inner, outer = (lambda k: first + k % low), (lambda k: first + low + k % high)
    while i < low or j < high:
        if (i + 1) * high <= (j + 1) * low:
            triangles.append((inner(i), outer(j), inner(i + 1)))
            i += 1
        else:
            triangles.append((inner(i), outer(j), outer(j + 1)))
            j += 1
    return triangles


def neighbours(triangles, cut=()):
    """For each triangle and edge the triangle beyond; -1 at a border and on both sides of a cut."""
    owner = {}
    for number, corners in enumerate(triangles):
        for edge in range(3):
            owner[corners[edge], corners[(edge + 1) % 3]] = number
    return [-1 if (a, b) in cut or (b, a) in cut else owner.get((b, a), -1)
            for t in triangles for a, b in ((t[0], t[1]), (t[1], t[2]), (t[2], t[0]))]


def medallion(inner, outer, counts, settings, cut=False):
    firsts = [sum(counts[:layer]) for layer in range(len(counts))]
    vertices = layers(inner, outer, counts)
    triangles = [t for k in range(len(counts) - 1) for t in band(firsts[k], counts[k], counts[k + 1])]
    seam = set(zip(firsts, firsts[1:])) if cut else ()
    tags = [INNER] * counts[0] + [0] * sum(counts[1:-1]) + [OUTER] * counts[-1]
    return sheet(vertices, triangles, neighbours(triangles, seam), tags, settings)


def curve(radius, x=0.0, y=0.0, wide=1.0):
    """A closed curve around (x, y) whose radius depends on the angle."""
    return lambda a: (x + wide * radius(a) * math.cos(a), y + radius(a) * math.sin(a))


def s1():
    settings = {STEP: 2.0 ** -1000, START_X: 0.5, START_Y: 0.5, ROOM: 100}
    return sheet([(0, 0), (2, 0), (0, 2)], [(0, 1, 2)], [-1] * 3, [INNER, OUTER, 0], settings)


def ring():
    return medallion(curve(lambda a: 2.5), curve(lambda a: 10), [18, 22, 26, 30, 36, 42, 48],
                     {LIMIT: 500, STEP: 0.75, ROOM: 4096})


def cut():
    return medallion(curve(lambda a: 2.25, x=1), curve(lambda a: 7.5, wide=1.35), [20, 24, 30, 36, 42, 48],
                     {LIMIT: 500, TOLERANCE: 1e-10, STEP: 0.7, START_X: 1, START_Y: 2.3, ROOM: 3000}, cut=True)


def petals():
    return medallion(curve(lambda a: 2.2), curve(lambda a: 9 * (1 + 0.11 * math.cos(6 * a))), [24, 30, 36, 42, 48, 54],
                     {LIMIT: 600, STEP: 0.65, ROOM: 4096})


if __name__ == '__main__':
    for make in (s1, ring, cut, petals):
        pathlib.Path(__file__).with_name(make.__name__ + '.sheet').write_bytes(make())
