"""A picture that is drawn pixel by pixel, and its PNG."""

import struct
import zlib

from common.letters import HEIGHT, LETTERS, PITCH

CLEAR = (0, 0, 0, 0)  # red, green, blue, opacity
SIGNATURE = b'\x89PNG\r\n\x1a\n'
BITS, WITH_OPACITY = 8, 6


class Canvas:
    """Pixels of four bytes, row by row from the top; clear at first."""

    def __init__(self, width, height):
        self.width, self.height = width, height
        self.rows = [bytearray(4 * width) for _ in range(height)]

    def fill(self, left, top, width, height, colour):
        """Fills a rectangle with a colour of three parts, or of four with its opacity."""
        line = bytes(opaque(colour)) * width
        for row in self.rows[top:top + height]:
            row[4 * left:4 * (left + width)] = line

    def lay(self, top, colours, side):
        """Squares of these colours side by side, from the left edge on."""
        line = b''.join(bytes(opaque(colour)) * side for colour in colours)
        for row in self.rows[top:top + side]:
            row[:len(line)] = line

    def ring(self, left, top, width, height, colour, thick):
        """The edge of a rectangle, within it."""
        thick = min(thick, width, height)
        for edge in ((left, top, width, thick), (left, top + height - thick, width, thick),
                     (left, top, thick, height), (left + width - thick, top, thick, height)):
            self.fill(*edge, colour)

    def write(self, left, top, text, colour, scale):
        """A line of text; signs that have no letter are left blank."""
        for place, sign in enumerate(text):
            for y, dots in enumerate(LETTERS.get(sign, LETTERS[' '])):
                for x, dot in enumerate(dots):
                    if dot == '#':
                        self.fill(left + (PITCH * place + x) * scale, top + y * scale, scale, scale, colour)

    def png(self):
        head = struct.pack('>IIBBBBB', self.width, self.height, BITS, WITH_OPACITY, 0, 0, 0)
        unfiltered = b''.join(b'\0' + row for row in self.rows)
        return SIGNATURE + chunk(b'IHDR', head) + chunk(b'IDAT', zlib.compress(unfiltered, 9)) + chunk(b'IEND', b'')


def opaque(colour):
    return colour if len(colour) == 4 else (*colour, 255)


def chunk(kind, data):
    return struct.pack('>I', len(data)) + kind + data + struct.pack('>I', zlib.crc32(kind + data))


def text_size(text, scale):
    """How wide and high a line of text is."""
    return (PITCH * len(text) - 1) * scale, HEIGHT * scale
