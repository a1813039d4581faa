"""Reading a stream into a pack, as stream-to-git and git-gittuf do: each line, each id and the order are looked at."""

import re

import stream_format
from stream_format import Refused, readable

LONGEST_LINE = 399
OBJECT = re.compile(rb"object (%s) (%s) (0|[1-9][0-9]*)" % (stream_format.ID, b"|".join(stream_format.KINDS)))
REFERENCE = re.compile(rb"ref ([^ ]+) (%s)" % stream_format.ID)


class Input:
    """What a stream is read from, with the number of bytes that were read of it, and the name of it that a refusal says."""

    def __init__(self, pipe, name):
        self.pipe, self.name = pipe, name
        self.count = 0

    def counted(self, piece):
        self.count += len(piece)
        if self.count > stream_format.MAX_STREAM:
            raise Refused(f"the stream passes {stream_format.MAX_STREAM} bytes")
        return piece

    def read(self, size):
        """Reads up to so many bytes, and at least one, or else refuses the stream as cut."""
        piece = self.counted(self.pipe.read(size))
        if not piece:
            raise Refused(f"the stream is cut after {self.count} bytes")
        return piece

    def line(self):
        """Reads a line, and returns it without its LF, with the offset of its first byte."""
        start = self.count
        line = self.counted(self.pipe.readline(LONGEST_LINE + 1))
        if line.endswith(b"\n"):
            return line[:-1], start
        if len(line) > LONGEST_LINE:
            raise Refused(f"the line at byte {start} has more than {LONGEST_LINE} bytes")
        raise Refused(f"the stream is cut after {self.count} bytes")

    def expect_end(self):
        if self.pipe.read(1):
            raise Refused(f"something follows the line end, at byte {self.count}")


def pieces_of(source, size):
    while size:
        piece = source.read(min(size, stream_format.PIECE))
        size -= len(piece)
        yield piece


def read_stream(source, pack):
    """Adds the stream's objects to the pack, and returns its references."""
    line, _ = source.line()
    if line + b"\n" != stream_format.HEADER:
        raise Refused(f"{source.name} is no stream: its first line is not gittuf-stream 1")
    last_id, references = b"", []
    while True:
        line, start = source.line()
        if line + b"\n" == stream_format.END:
            source.expect_end()
            return references
        head, reference = OBJECT.fullmatch(line), REFERENCE.fullmatch(line)
        if head:
            last_id = read_object(source, pack, head, start, last_id, references)
        elif reference:
            if not stream_format.is_reference_name(reference[1]):
                raise Refused(f"the line at byte {start} has no name of a reference: {readable(reference[1])}")
            if references and references[-1][0] >= reference[1]:
                raise Refused(f"the reference at byte {start} is out of order")
            references.append((reference[1], reference[2]))
        else:
            raise Refused(f"the line at byte {start} is no line of a stream")


def read_object(source, pack, head, start, last_id, references):
    object_id, kind, size = head[1], head[2], int(head[3])
    if size > stream_format.MAX_BODY:
        raise Refused(f"the object at byte {start} has {size} bytes, and a stream takes {stream_format.MAX_BODY}")
    if references or object_id <= last_id:
        raise Refused(f"the object at byte {start} is out of order")
    pack.add(object_id, kind, size, pieces_of(source, size))
    if source.read(1) != b"\n":
        raise Refused(f"the object at byte {start} is longer than it says")
    return object_id
