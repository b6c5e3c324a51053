"""The names of a partition and the numbers that a program has for them. Shared by the scripts beside it."""
import hashlib
import os
import re
import struct
import sys
import tomllib

NAME = re.compile(r"[A-Za-z_][A-Za-z0-9_.]{0,63}\Z")
WINDOWS, WINDOW = 0x40000000, 0x10000


class Fault(Exception):
    """What is wrong, as the user is to read it."""


def read_bytes(path):
    """Returns the bytes of a file, or those of the input where it is `-`."""
    try:
        if path == "-":
            return sys.stdin.buffer.read()
        with open(path, "rb") as file:
            return file.read()
    except OSError as error:
        raise Fault(f"{path}: {error.strerror}") from None


def read_partition(path):
    """Returns the table of a partition."""
    try:
        return tomllib.loads(read_bytes(path).decode())
    except (tomllib.TOMLDecodeError, UnicodeDecodeError) as error:
        raise Fault(f"{path}: no TOML document: {error}") from None


def named_tables(path, partition, key):
    """Returns the tables of a key, `tag` or `fd`, in the order of their names."""
    tables = partition.get(key, [])
    if not isinstance(tables, list) or not all(isinstance(it, dict) for it in tables):
        raise Fault(f"{path}: `{key}` is no array of tables: each begins with [[{key}]]")
    for table in tables:
        name = table.get("name")
        if not isinstance(name, str) or not NAME.match(name):
            what = "a table without a name" if name is None else f"{name!r} is no name"
            raise Fault(f"{path}: [[{key}]]: {what}")
    tables = sorted(tables, key=lambda it: it["name"])
    for one, other in zip(tables, tables[1:]):
        if one["name"] == other["name"]:
            raise Fault(f"{path}: [[{key}]]: `{one['name']}` is there twice")
    return tables


def identifier(kind, name):
    """Returns the name of a constant: TAG_KEY for the tag `key`."""
    return f"{kind}_{name.upper().replace('.', '_')}"


class Names:
    """The constants of a partition, in the order of their numbers, and the digest of its names."""

    def __init__(self, path):
        partition = read_partition(path)
        self.path = path
        self.tags = named_tables(path, partition, "tag")
        self.fds = named_tables(path, partition, "fd")
        self.check("TAG", self.tags)
        self.check("FD", self.fds)

    def check(self, kind, tables):
        seen = {}
        for table in tables:
            constant = identifier(kind, table["name"])
            if constant in seen:
                raise Fault(f"{self.path}: `{seen[constant]}` and `{table['name']}` are both {constant} in C: rename one")
            seen[constant] = table["name"]

    def numbers(self):
        """Returns the constants whose value is an index: of tags, then of descriptors."""
        pairs = [(identifier("TAG", it["name"]), n) for n, it in enumerate(self.tags)]
        return pairs + [(identifier("FD", it["name"]), n) for n, it in enumerate(self.fds)]

    def windows(self):
        """Returns the constants whose value is the address at which a tag is seen."""
        return [(identifier("SEG", it["name"]), WINDOWS + n * WINDOW) for n, it in enumerate(self.tags)]

    def digest(self):
        """Returns 32 bits that are others, but for accidents, where a name or the order is another."""
        lines = [f"tag {it['name']}\n" for it in self.tags] + [f"fd {it['name']}\n" for it in self.fds]
        return int.from_bytes(hashlib.sha256("".join(lines).encode()).digest()[:4], "little")


def absolute_symbols(path):
    """Returns the absolute symbols of an ELF file of 32 bits, by name."""
    data = read_bytes(path)
    if data[:6] != b"\x7fELF\x01\x01":
        raise Fault(f"{path}: no ELF file of 32 bits, little-endian")
    try:
        sections, size, count = struct.unpack_from("<I", data, 32)[0], *struct.unpack_from("<HH", data, 46)
        headers = [struct.unpack_from("<10I", data, sections + size * n) for n in range(count)]
        symbols = {}
        for header in headers:
            if header[1] != 2:
                continue
            names = headers[header[6]][4]
            for at in range(header[4], header[4] + header[5], 16):
                name, value, _, _, _, section = struct.unpack_from("<IIIBBH", data, at)
                if section == 0xFFF1:
                    begin = names + name
                    symbols[data[begin : data.index(b"\0", begin)].decode()] = value
        return symbols
    except (struct.error, IndexError, ValueError):
        raise Fault(f"{path}: its section headers or its symbols are damaged") from None


def wedge_command():
    """Returns the program: $WEDGE, or the one that bin/wedge of this repository has built."""
    here = os.path.dirname(os.path.realpath(__file__))
    program = os.environ.get("WEDGE") or os.path.join(os.path.dirname(here), "crates", "wedge", "out", "wedge")
    if not os.access(program, os.X_OK):
        raise Fault(f"{program}: no such program; a command of bin/wedge builds it, or $WEDGE names another")
    return program


def main(script, work):
    """Runs a script, and says what is wrong on the error stream: status 1."""
    try:
        sys.exit(work())
    except Fault as fault:
        print(f"{script}: {fault}", file=sys.stderr)
        sys.exit(1)
    except BrokenPipeError:
        sys.stderr.close()
        sys.exit(1)
