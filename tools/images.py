#!/usr/bin/env python3
"""Makes images of packs: the sample that ships with the repository, and large ones to measure on.

    tools/images.py sample OUT            one cylinder, with some damage
    tools/images.py typical CYLINDERS OUT some hundred files of many lengths, spread over the pack
    tools/images.py leaders CYLINDERS OUT every page above 0 a leader of its own file id
"""
import random
import struct
import sys

FREE = (0, 0, 0, 0, 0, 65535, 65535, 65535)


def real(page):
    """The real address of a page: sector, track and head in their bits."""
    return 4096 * (page % 12) + 8 * (page // 24) + 4 * (page // 12 % 2)


class Pack:
    """Labels, data and marks of a pack of so many cylinders, all pages free at first."""

    def __init__(self, cylinders):
        self.n = 24 * cylinders
        self.labels = [FREE] * self.n
        self.data = [[0] * 256 for _ in range(self.n)]
        self.marks = [0] * self.n

    def chain(self, pages, version, serial1, serial2, last=512):
        """A file on those pages, the leader first, linked both ways."""
        for i, page in enumerate(pages):
            after = real(pages[i + 1]) if i + 1 < len(pages) else 0
            before = real(pages[i - 1]) if i > 0 else 0
            count = last if i > 0 and i + 1 == len(pages) else 512
            self.labels[page] = (after, before, 0, count, i, version, serial1, serial2)
            self.data[page] = [page] * 256

    def write(self, path):
        words = [self.n]
        for label in self.labels:
            words += label
        words.append(self.n)
        for data in self.data:
            words += data
        words.append(self.n)
        words += self.marks
        with open(path, "wb") as out:
            out.write(struct.pack(">%dH" % len(words), *words))


def sample(path):
    pack = Pack(1)
    pack.labels[0] = (0,) * 8
    pack.chain([1, 2], 1, 32768, 1)
    # a memo of three data pages, and a draft that also claims to be its page 3
    pack.chain([3, 4, 7, 5], 1, 0, 2, last=100)
    pack.labels[6] = (0, real(7), 0, 100, 3, 1, 0, 2)
    pack.data[4] = [0] * 256
    pack.marks[4] = 2
    # a file that ends early: its second page cannot be read
    pack.chain([8, 9, 10], 1, 0, 3, last=30)
    pack.marks[9] = 3
    # a leader whose next names no page: sector 12
    pack.labels[11] = (49152, 0, 0, 512, 0, 1, 0, 4)
    # a page with neither a free nor a file's label, and one with the random mark
    pack.labels[12] = (0,) * 8
    pack.labels[13] = (0, 0, 0, 512, 0, 1, 16384, 5)
    pack.write(path)


def typical(cylinders, path):
    pack = Pack(cylinders)
    pack.chain([1, 2], 1, 32768, 1)
    pages = list(range(3, pack.n))
    random.Random(1975).shuffle(pages)
    serial = 2
    while len(pages) > pack.n // 4:
        length = min(2 + (serial * 7) % 40, len(pages))
        pack.chain(pages[:length], 1, serial // 65536, serial % 65536, last=256)
        pages = pages[length:]
        serial += 1
    pack.write(path)


def leaders(cylinders, path):
    pack = Pack(cylinders)
    for page in range(1, pack.n):
        pack.chain([page], 1, 0, page)
    pack.write(path)


def main(words):
    if len(words) == 2 and words[0] == "sample":
        sample(words[1])
    elif len(words) == 3 and words[0] == "typical":
        typical(int(words[1]), words[2])
    elif len(words) == 3 and words[0] == "leaders":
        leaders(int(words[1]), words[2])
    else:
        sys.exit(__doc__)


main(sys.argv[1:])
