"""Images: their fields, as docs/FORMATS.md has them. Shared by the scripts beside it."""
import struct
from dataclasses import dataclass, field

from wedge_names import Fault

LIMIT = 16777216
PAGE = 4096
RIGHTS = ("none", "Cow", "Read", "ReadWrite")
KINDS = ("source", "append")
BITS = ("none", "read", "append", "both")


@dataclass
class Image:
    fuel: int = 0
    base: int = 0x10000
    words: bytes = b""
    procedures: list = field(default_factory=list)  # (name, address)
    entry: int = 0
    ranges: list = field(default_factory=list)  # [base, content]
    tags: list = field(default_factory=list)  # [name, pages, right, content]
    fds: list = field(default_factory=list)  # [name, kind, bits, content]
    files: list = field(default_factory=list)  # [path, owner, mode, kind, content]
    user: int = 0
    root: bytes = b"/"

    def procedure_at(self, pc):
        """Returns the procedure in which a pc lies, and the distance from its address, or None."""
        before = [(address, name) for name, address in self.procedures if address <= pc]
        if not before or pc >= self.base + len(self.words):
            return None
        address, name = max(before)
        return name.decode(), pc - address


class Reader:
    """Reads fields one after another, and notes where each begins and what it is."""

    def __init__(self, data):
        self.data, self.at, self.notes = data, 0, []

    def take(self, size, what):
        self.notes.append((self.at, what))
        if self.at + size > len(self.data):
            raise Fault(f"truncated at {self.at}: {what}")
        self.at += size
        return self.data[self.at - size : self.at]

    def number(self, what):
        return struct.unpack("<I", self.take(4, what))[0]

    def string(self, what):
        size = struct.unpack("<H", self.take(2, f"the length of {what}"))[0]
        return self.take(size, what)

    def content(self, what):
        size = self.number(f"the length of {what}")
        return self.take(size, what)

    def table(self, what, read):
        count = self.number(f"the number of {what}s")
        entries = []
        for n in range(count):
            entries.append(read(f"{what} {n}"))
        return entries

    def named(self, what, *numbers):
        """Reads an entry of a name, numbers and a content, which goes by its name in the notes behind that."""
        name = self.string(f"the {'path' if what.startswith('file') else 'name'} of {what}")
        what = f"{what}, `{name.decode(errors='replace')}`"
        return [name, *(self.number(f"{it} of {what}") for it in numbers), self.content(f"the content of {what}")]

    def image(self):
        image = Image()
        if self.take(4, "the magic") != b"WEDG" or self.number("the version") != 1:
            raise Fault("no image, as wedge build and wedge link make them")
        image.fuel = self.number("fuel")
        image.base = self.number("base")
        count = self.number("the number of words of the text")
        image.words = self.take(4 * count, "the text")
        image.procedures = self.table("procedure", self.procedure)
        image.entry = self.number("entry")
        image.ranges = self.table("data range", lambda it: [self.number(f"the base of {it}"), self.content(f"the bytes of {it}")])
        image.tags = self.table("tag", lambda it: self.named(it, "pages", "right"))
        image.fds = self.table("fd", lambda it: self.named(it, "kind", "bits"))
        image.files = self.table("file", lambda it: self.named(it, "owner", "mode", "kind"))
        image.user = self.number("user")
        image.root = self.string("root")
        self.notes.append((self.at, "what follows the image"))
        if self.at < len(self.data):
            raise Fault(f"trailing bytes at {self.at}")
        return image

    def procedure(self, what):
        name = self.string(f"the name of {what}")
        return name, self.number(f"the address of {what}, `{name.decode(errors='replace')}`")


def read_image(path, data):
    try:
        return Reader(data).image()
    except Fault as fault:
        raise Fault(f"{path}: {fault}") from None


def field_at(data, offset):
    """Returns what the field is that lies at an offset of an image, which may be damaged from there on."""
    if offset >= LIMIT:
        return f"the whole image, of at most {LIMIT} bytes"
    reader = Reader(data)
    try:
        reader.image()
    except Fault:
        pass
    return [what for at, what in reader.notes if at <= offset][-1]


def write_image(image):
    """Returns the bytes of an image, whether it keeps the rules or not."""

    def number(value):
        return struct.pack("<I", value)

    def string(value):
        return struct.pack("<H", len(value)) + value

    def content(value):
        return number(len(value)) + value

    def named(entry):
        return string(entry[0]) + b"".join(map(number, entry[1:-1])) + content(entry[-1])

    def table(entries, write):
        return number(len(entries)) + b"".join(map(write, entries))

    parts = [b"WEDG", number(1), number(image.fuel), number(image.base), number(len(image.words) // 4), image.words]
    parts += [table(image.procedures, lambda it: string(it[0]) + number(it[1])), number(image.entry)]
    parts += [table(image.ranges, lambda it: number(it[0]) + content(it[1]))]
    parts += [table(it, named) for it in (image.tags, image.fds, image.files)]
    return b"".join(parts + [number(image.user), string(image.root)])
