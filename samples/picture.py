"""python3 picture.py SHEET TEXT > SVG

Draws a sheet and what `spiral` printed for it: the field by triangle, the mesh, the held borders,
the cut edges and the path.
"""
import pathlib
import struct
import sys

SIZE, TOP, MARGIN = 800, 64, 36
LOW, HIGH = (0xf6, 0xee, 0xdc), (0x6f, 0x9a, 0xa3)
HELD = {1: '#1f4e5a', 2: '#b5862b'}
FIELD_ENDS = ['not solved', 'norm below tolerance', 'direction vanished', 'limit used up']
PATH_ENDS = ['not ended', 'field flat', 'no exit', 'border reached', 'neighbours disagree',
             'value above 0.99', 'passes used up', 'room used up', 'start outside', 'no start']


def read_sheet(data):
    """Vertices, triangles, neighbours, tags."""
    sections, at = [], 0
    for form in ('<2d', '<3I', '<i', '<B'):
        count, = struct.unpack_from('<I', data, at)
        end = at + 4 + count * struct.calcsize(form)
        sections.append(list(struct.iter_unpack(form, data[at + 4:end])))
        at = end
    return sections[0], sections[1], [t for t, in sections[2]], [t for t, in sections[3]]


def read_text(text):
    """The end line's three numbers, the field, the path."""
    lines = [line.split() for line in text.splitlines()]
    if not lines or lines[0][0] != 'end':
        sys.exit('no run: ' + text.strip()[:80])
    number = lambda bits: struct.unpack('>d', bytes.fromhex(bits))[0]
    field = [number(line[1]) for line in lines if line[0] == 'u']
    path = [(number(line[1]), number(line[2])) for line in lines if line[0] == 'p']
    return [int(word) for word in lines[0][1:]], field, path


def colour(value):
    part = min(1.0, max(0.0, value))
    return '#' + ''.join('%02x' % round(a + part * (b - a)) for a, b in zip(LOW, HIGH))


def placer(vertices):
    """Fits the mesh below the title, y upwards."""
    xs, ys = [v[0] for v in vertices], [v[1] for v in vertices]
    wide, high = SIZE - 2 * MARGIN, SIZE - TOP - 2 * MARGIN
    scale = min(wide / ((max(xs) - min(xs)) or 1), high / ((max(ys) - min(ys)) or 1))
    mx, my = (max(xs) + min(xs)) / 2, (max(ys) + min(ys)) / 2
    return lambda p: '%.2f,%.2f' % (SIZE / 2 + (p[0] - mx) * scale, TOP + (SIZE - TOP) / 2 - (p[1] - my) * scale)


def edges(triangles, neighbours, tags):
    """The border's edges by kind: inner, outer, free, cut."""
    alone = {}
    for number, corners in enumerate(triangles):
        for edge in range(3):
            if neighbours[3 * number + edge] == -1:
                alone[corners[edge], corners[(edge + 1) % 3]] = True
    kinds = {'inner': [], 'outer': [], 'free': [], 'cut': []}
    for a, b in alone:
        if (b, a) in alone:
            if a < b:
                kinds['cut'].append((a, b))
        else:
            held = {1: 'outer', 2: 'inner'}.get(tags[a], 'free') if tags[a] == tags[b] else 'free'
            kinds[held].append((a, b))
    return kinds


def lines(pairs, spots):
    return ''.join('M%sL%s' % (spots[a], spots[b]) for a, b in pairs)


def scale_bar():
    steps = ['<rect x="%d" y="44" width="7" height="10" fill="%s"/>' % (640 + 6 * k, colour(k / 19)) for k in range(20)]
    return steps + ['<text x="632" y="53" text-anchor="end">field 0</text>', '<text x="766" y="53">1</text>']


def dot(spot, radius, fill):
    return '<circle cx="%s" cy="%s" r="%s" fill="%s"/>' % (*spot.split(','), radius, fill)


def picture(name, sheet, text):
    vertices, triangles, neighbours, tags = read_sheet(sheet)
    (place, field_end, path_end), field, path = read_text(text)
    if not vertices:
        sys.exit('nothing to draw')
    put = placer(vertices)
    spots, kinds = [put(v) for v in vertices], edges(triangles, neighbours, tags)
    out = ['<svg xmlns="http://www.w3.org/2000/svg" width="%d" height="%d" viewBox="0 0 %d %d" '
           'font-family="sans-serif" font-size="13" fill="#333">' % (SIZE, SIZE, SIZE, SIZE),
           '<rect width="%d" height="%d" fill="#fff"/>' % (SIZE, SIZE),
           '<text x="36" y="30" font-size="14">%s: place %d, field end %d (%s), path end %d (%s), %d points</text>'
           % (name, place, field_end, FIELD_ENDS[field_end], path_end, PATH_ENDS[path_end], len(path)),
           '<text x="36" y="53" fill="#777">vertices: %d, triangles: %d</text>' % (len(vertices), len(triangles))]
    out += scale_bar() + ['<g stroke="#55707a" stroke-width="0.4" stroke-linejoin="round">']
    for corners in triangles:
        mean = sum(field[v] for v in corners) / 3
        out.append('<path d="M%sZ" fill="%s"/>' % ('L'.join(spots[v] for v in corners), colour(mean)))
    out.append('</g><g fill="none" stroke-linecap="round">')
    for kind, ink, wide in (('free', '#888', 1), ('inner', HELD[2], 3.5), ('outer', HELD[1], 3.5)):
        out.append('<path d="%s" stroke="%s" stroke-width="%s"/>' % (lines(kinds[kind], spots), ink, wide))
    out.append('<path d="%s" stroke="#222" stroke-width="2.4" stroke-linecap="butt" stroke-dasharray="9 5"/>'
               % lines(kinds['cut'], spots))
    out.append('<polyline points="%s" stroke="#8c2f39" stroke-width="2.2" stroke-linejoin="round"/></g>'
               % ' '.join(put(p) for p in path))
    out += [dot(spots[v], 2.5, HELD[tag]) for v, tag in enumerate(tags) if tag]
    if path:
        out += [dot(put(path[0]), 5, '#8c2f39'), dot(put(path[-1]), 5, '#8c2f39')]
    return '\n'.join(out + ['</svg>', ''])


if __name__ == '__main__':
    sheet_file, text_file = map(pathlib.Path, sys.argv[1:3])
    sys.stdout.write(picture(sheet_file.stem, sheet_file.read_bytes(), text_file.read_text()))
