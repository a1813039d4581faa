"""Packs of Git in object format SHA-256, as stream-to-git and git-gittuf write them."""

import hashlib
import struct
import zlib

import stream_format
from stream_format import Refused

# A log's entries name the empty tree, and no stream or store needs to hold it, but git fsck wants what commits name.
EMPTY_TREE = b"6ef19b41225c5369f1c104d45d8d85efa9b057b53b14b4b9b939dd74decc5321"


class Pack:
    """A pack of whole objects. One file is written far faster than a file for each object."""

    CODES = {b"commit": 1, b"tree": 2, b"blob": 3, b"tag": 4}

    def __init__(self, file):
        self.file = file
        self.count = 0
        self.has_empty_tree = False
        self.write_header()

    def write_header(self):
        self.file.seek(0)
        self.file.write(struct.pack(">4sII", b"PACK", 2, self.count))

    def add(self, object_id, kind, size, pieces):
        """Adds an object from the pieces of its body, and refuses one whose id is another."""
        self.file.write(self.head_of(kind, size))
        found, packing = stream_format.hash_of(kind, size), zlib.compressobj(1)
        for piece in pieces:
            found.update(piece)
            self.file.write(packing.compress(piece))
        self.file.write(packing.flush())
        if found.hexdigest().encode() != object_id:
            raise Refused(f"the object {object_id.decode()} has bytes whose id is {found.hexdigest()}")
        self.count += 1
        self.has_empty_tree = self.has_empty_tree or object_id == EMPTY_TREE

    def head_of(self, kind, size):
        """An object's kind with the size's lowest 4 bits, then 7 bits a byte. A high bit says that more follows."""
        head = [self.CODES[kind] << 4 | size & 15]
        size >>= 4
        while size:
            head[-1] |= 128
            head.append(size & 127)
            size >>= 7
        return bytes(head)

    def end(self):
        """Writes the number of objects at the front and the sum of all at the end, and returns the sum."""
        self.write_header()
        self.file.seek(0)
        found = hashlib.sha256()
        for piece in iter(lambda: self.file.read(stream_format.PIECE), b""):
            found.update(piece)
        self.file.write(found.digest())
        return found.hexdigest()
