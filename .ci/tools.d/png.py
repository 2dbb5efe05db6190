"""Decodes a PNG of eight bits a channel, for the tests."""

import struct
import zlib

CHANNELS = {0: 1, 2: 3, 4: 2, 6: 4}


def chunks(data):
    assert data[:8] == b'\x89PNG\r\n\x1a\n', 'no PNG'
    at = 8
    while at < len(data):
        (size,), kind = struct.unpack('>I', data[at:at + 4]), data[at + 4:at + 8]
        body = data[at + 8:at + 8 + size]
        assert struct.unpack('>I', data[at + 8 + size:at + 12 + size])[0] == zlib.crc32(kind + body), f'wrong sum of {kind}'
        yield kind, body
        at += 12 + size


def nearest_of(left, above, corner):
    """The one of three that the PNG's fourth filter takes."""
    guess = left + above - corner
    return min((left, above, corner), key=lambda it: (abs(guess - it), (left, above, corner).index(it)))


def unfiltered(kind, line, before, step):
    done = bytearray()
    for place, byte in enumerate(line):
        left = done[place - step] if place >= step else 0
        corner = before[place - step] if place >= step else 0
        above = before[place]
        done.append((byte + (0, left, above, (left + above) // 2, nearest_of(left, above, corner))[kind]) % 256)
    return done


def decode(data):
    """The rows of pixels, each a tuple of the channels."""
    found = list(chunks(data))
    assert found[0][0] == b'IHDR' and found[-1] == (b'IEND', b'')
    width, height, bits, kind, *rest = struct.unpack('>IIBBBBB', found[0][1])
    assert bits == 8 and rest == [0, 0, 0]
    step = CHANNELS[kind]
    raw = zlib.decompress(b''.join(body for name, body in found if name == b'IDAT'))
    assert len(raw) == height * (1 + width * step)
    rows, before = [], bytearray(width * step)
    for number in range(height):
        line = raw[number * (1 + width * step):(number + 1) * (1 + width * step)]
        before = unfiltered(line[0], line[1:], before, step)
        rows.append([tuple(before[at:at + step]) for at in range(0, len(before), step)])
    return rows
