"""python3 bad_inputs.py PROGRAM [COUNT [SEED]]

Feeds bad input to `spiral`: nothing, text, sample sheets cut short, too many bytes, and COUNT
(10,000) random files, most of which begin as a sheet does. Each must print one line `refused N`,
N from 1 to 8, and end with status 0. Prints how many of each N came back.
"""
import collections
import pathlib
import random
import re
import struct
import subprocess
import sys

SAMPLES = [file.read_bytes() for file in sorted(pathlib.Path(__file__).parent.glob('*.sheet'))]


def fixed():
    """Input that needs no chance."""
    yield b''
    yield b'\n'
    yield b'end 3 1 3\n'
    yield 'A sheet is no text: schön, but no.\n'.encode() * 50
    for size in (65535, 65536, 65537, 70000, 1 << 20):
        yield bytes(size)
    for sheet in SAMPLES:
        for size in sorted(set(range(0, len(sheet), 100)) | {len(sheet) - 1}):
            yield sheet[:size]
        yield sheet + b'\0'
        yield sheet + bytes(70000 - len(sheet))


def count(chance, right):
    """The right count, now and then a wrong one."""
    wrong = chance.choice([0, right + 1, 4097, 8193, 1 << 31, (1 << 32) - 1])
    return struct.pack('<I', right if chance.random() < 0.97 else wrong)


def number(chance):
    """A coordinate, now and then a NaN, an infinity or any bits."""
    bits = chance.choice([0x7ff0 << 48, 0x7ff8 << 48, 0xfff0 << 48, 0x8000 << 48, 1, chance.getrandbits(64)])
    return struct.pack('<Q', bits) if chance.random() < 0.02 else struct.pack('<d', chance.uniform(-9, 9))


def settings(chance):
    """Settings that are refused: a kind missing, unknown or not rising, or a room outside the bounds."""
    kinds = chance.choice([[3, 6], [1, 2, 3, 4, 5, 6], [3, 4, 6], [6, 3], [3], [6], [2, 3, 5, 6], [],
                           [0, 3, 6], [3, 6, 7], [3, 3, 6], [1, 2, 3, 4, 5, 6, 6]])
    values = {1: struct.pack('<Q', chance.choice([7, 100001])),
              6: struct.pack('<Q', chance.choice([0, 4097, 1000001]))}
    return count(chance, len(kinds)) + b''.join(bytes([kind]) + values.get(kind, number(chance)) for kind in kinds)


def drawn(chance):
    """A sheet that is right part of the way; its settings never are."""
    n, t = chance.randint(1, 40), chance.randint(0, 60)
    out = count(chance, n) + b''.join(number(chance) for _ in range(2 * n))
    out += count(chance, t) + b''.join(struct.pack('<I', chance.randrange(n)) for _ in range(3 * t))
    out += count(chance, 3 * t) + b''.join(struct.pack('<i', chance.randrange(-1, t)) for _ in range(3 * t))
    out += count(chance, n) + bytes(chance.randrange(3) for _ in range(n)) + settings(chance)
    return out


def altered(chance):
    """A sample sheet with some bytes changed and its end cut off or added to."""
    sheet = bytearray(chance.choice(SAMPLES))
    for _ in range(chance.randrange(4)):
        sheet[chance.randrange(len(sheet))] = chance.randrange(256)
    if chance.random() < 0.7:
        return bytes(sheet[:chance.randrange(len(sheet))])
    return bytes(sheet) + chance.randbytes(chance.randint(1, 20))


def noise(chance):
    """Random bytes, after nothing or a small count."""
    return chance.choice([b'', count(chance, chance.randrange(9))]) + chance.randbytes(chance.randrange(2000))


def inputs(total, seed):
    yield from fixed()
    chance = random.Random(seed)
    for _ in range(total):
        yield chance.choice([drawn, drawn, altered, noise])(chance)


def main(program, total=10000, seed=1):
    seen = collections.Counter()
    for data in inputs(int(total), int(seed)):
        done = subprocess.run([program], input=data, capture_output=True, timeout=60)
        if done.returncode or not re.fullmatch(rb'refused [1-8]\n', done.stdout):
            pathlib.Path('bad_input').write_bytes(data)
            sys.exit('status %d, output %r: the input is in ./bad_input' % (done.returncode, done.stdout[:80]))
        seen[done.stdout.split()[1].decode()] += 1
    print(sum(seen.values()), 'inputs refused:', ', '.join('%s %d times' % pair for pair in sorted(seen.items())))


if __name__ == '__main__':
    main(*sys.argv[1:])
