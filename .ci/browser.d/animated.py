"""Animated PNGs of screenshots. The browser finds in which pixels each differs from the one before; the others are clear in it."""

import base64
import os
import struct
import sys
import zlib

from live_run import TOP

sys.path.insert(1, os.path.join(TOP, '.ci', 'tools.d'))
from common.canvas import SIGNATURE, chunk
from png import chunks

DIFFERENCES = '''
    const [pictures, done] = arguments, canvas = document.createElement('canvas'), context = canvas.getContext('2d', {willReadFrequently: true});
    const changed = async (picture, before) => {
        const image = new Image();
        image.src = `data:image/png;base64,${picture}`;
        await image.decode();
        const {width, height} = image;
        if (canvas.width !== width || canvas.height !== height) Object.assign(canvas, {width, height});
        context.clearRect(0, 0, width, height);
        context.drawImage(image, 0, 0);
        const data = context.getImageData(0, 0, width, height), words = new Uint32Array(data.data.buffer), whole = words.slice();
        if (before) words.forEach((word, index) => { if (word === before[index]) words[index] = 0; });
        context.putImageData(data, 0, 0);
        return [whole, canvas.toDataURL('image/png').split(',')[1]];
    };
    (async () => {
        const frames = [];
        let whole = null, frame;
        for (const picture of pictures) {
            [whole, frame] = await changed(picture, whole);
            frames.push(frame);
        }
        done(frames);
    })();'''
KEPT, LAID_OVER = 0, 1  # what becomes of a frame after it was shown, and how it is drawn over the one before


def parts(data):
    """The header and the pixels of a PNG, packed as tightly as it goes."""
    found = list(chunks(data))
    pixels = zlib.decompress(b''.join(body for kind, body in found if kind == b'IDAT'))
    return found[0][1], zlib.compress(pixels, 9)


def animated(browser, frames):
    """An animated PNG of screenshots, each with the milliseconds for which it is seen. It plays over and over."""
    browser.go('about:blank')
    pictures = [base64.b64encode(picture).decode() for picture, _ in frames]
    changes = [parts(base64.b64decode(change)) for change in browser.run_until_told(DIFFERENCES, pictures)]
    header = changes[0][0]
    assert all(other == header for other, _ in changes), 'the screenshots have different sizes'
    written = [SIGNATURE, chunk(b'IHDR', header), chunk(b'acTL', struct.pack('>II', len(frames), 0))]
    number = 0
    for (_, pixels), (_, duration) in zip(changes, frames):
        written.append(chunk(b'fcTL', struct.pack('>I', number) + header[:8] + struct.pack('>IIHHBB', 0, 0, duration, 1000, KEPT, LAID_OVER)))
        is_first = number == 0
        written.append(chunk(b'IDAT', pixels) if is_first else chunk(b'fdAT', struct.pack('>I', number + 1) + pixels))
        number += 1 if is_first else 2
    return b''.join(written) + chunk(b'IEND', b'')
