"""Where in the file of a partition its tables, keys and text are, and the image that it would be. Shared by the scripts beside it."""
import re
import subprocess
import tempfile

from wedge_image import BITS, KINDS, RIGHTS, Image, read_image
from wedge_names import wedge_command

TABLE = re.compile(r"\s*\[\[\s*(data|tag|fd|file)\s*\]\]")
KEY = re.compile(r"""\s*("[^"]*"|'[^']*'|[A-Za-z0-9_-]+)\s*=""")
MINIMAL = b'fuel = 0\nuser = 0\nroot = "/"\n'


class Source:
    """The lines of a partition, with the line and the column of each header and key, as it is mostly written."""

    def __init__(self, text):
        self.lines = text.split("\n")
        self.tables = {kind: [] for kind in ("top", "data", "tag", "fd", "file")}
        table = {None: (0, 0)}
        self.tables["top"].append(table)
        quotes = None
        for number, line in enumerate(self.lines):
            if quotes is None:
                header, key = TABLE.match(line), KEY.match(line)
                if header:
                    table = {None: (number, line.index("["))}
                    self.tables[header[1]].append(table)
                elif key:
                    table.setdefault(key[1].strip("\"'"), (number, key.start(1)))
            for found in re.findall(r'"""|\'\'\'', line):
                quotes = found if quotes is None else None if quotes == found else quotes

    def place(self, kind, index, key=None):
        """Returns the line and column of a key, or of the header where it has no such line; None where there is no header."""
        tables = self.tables[kind]
        if index >= len(tables):
            return None
        return tables[index].get(key, tables[index][None] if kind != "top" else None)

    def text_line(self, number, wanted):
        """Returns the place of a line of the key `text`, counted from 1, where it has these bytes."""
        begins = self.tables["top"][0].get("text")
        if begins is None:
            return None
        first = begins[0] + (0 if re.search(r"(\"\"\"|''')\s*\S", self.lines[begins[0]]) else 1)
        at = first + number - 1
        return (at, 0) if at < len(self.lines) and self.lines[at].strip("\r") == wanted.strip("\r") else None


def content_of(table):
    try:
        return table["text"].encode() if "text" in table else bytes.fromhex(table.get("hex", ""))
    except (AttributeError, TypeError, ValueError):
        return b""


def ordered(partition, kind):
    """Returns the tables of a kind as an image has them, each with its index in the document."""
    by = {"data": "base", "file": "path"}.get(kind, "name")
    tables = list(enumerate(partition.get(kind, [])))
    return sorted(tables, key=lambda it: it[1][by] if by == "base" else it[1][by].encode())


def equates(partition):
    found = {}
    for kind in ("tag", "fd"):
        for number, (_, table) in enumerate(ordered(partition, kind)):
            found[f"{kind}_{table['name']}"] = number
            if kind == "tag":
                found[f"seg_{table['name']}"] = 0x40000000 + 0x10000 * number
    for _, table in ordered(partition, "data"):
        found.setdefault(f"data_{table['name']}", table["base"])
    return found


def assembled(partition):
    """Returns how many words the text has, and the names of its procedures: what docs/FORMATS.md says of each statement."""
    words, procedures, numbers = 0, [], equates(partition)
    for line in partition["text"].split("\n"):
        parts = line.split("#")[0].replace(",", " ").split()
        if not parts or parts[0].endswith(":"):
            continue
        if parts[0] == ".proc":
            procedures.append(parts[1])
        elif parts[0] == "li":
            value = numbers.get(parts[2])
            value = int(parts[2], 0) if value is None else value
            value = value - (1 << 32) if value >= 1 << 31 else value
            words += 1 if -2048 <= value < 2048 else 2
        else:
            words += 2 if parts[0] in ("la", "svc") else 1
    return words, procedures


def linked(elf):
    """Returns the image of an ELF file and a partition that has nothing."""
    with tempfile.NamedTemporaryFile(suffix=".toml") as file:
        file.write(MINIMAL)
        file.flush()
        ended = subprocess.run([wedge_command(), "link", elf, file.name], capture_output=True, check=True)
    return read_image(elf, ended.stdout)


def would_be(partition, elf):
    """Returns the image that a partition would be, with the lengths of all fields as they are, and the text all zeros."""
    if elf:
        image = linked(elf)
    else:
        words, procedures = assembled(partition)
        image = Image(base=partition.get("base", 0x10000), words=bytes(4 * words))
        image.procedures = [(it.encode(), 0) for it in sorted(procedures)]
        for _, table in ordered(partition, "data"):
            content = content_of(table)
            image.ranges.append([table["base"], content + bytes(-len(content) % 4)])
    image.fuel, image.user, image.root = partition["fuel"], partition["user"], partition["root"].encode()
    for _, it in ordered(partition, "tag"):
        image.tags.append([it["name"].encode(), it["pages"], RIGHTS.index(it["right"]), content_of(it)])
    for _, it in ordered(partition, "fd"):
        image.fds.append([it["name"].encode(), KINDS.index(it["kind"]), BITS.index(it["bits"]), content_of(it)])
    for _, it in ordered(partition, "file"):
        numbers = [it["owner"], it["mode"], KINDS.index(it["kind"])]
        image.files.append([it["path"].encode(), *numbers, content_of(it)])
    return image
