"""What is said of a partition that wedge rejects: the line at fault and what it may be. Shared by the scripts beside it."""
import difflib
import re
import struct
import tomllib

from wedge_image import field_at, write_image
from wedge_names import read_bytes
from wedge_rules import ELF_FIELDS, ELF_LOADS, ELF_SYMBOLS, FIELDS, HEX, NUMBER, OPTIONAL, REASONS, RULES, SHAPES, STRING
from wedge_source import Source, equates, ordered, would_be


def shown(source, place, path):
    """Returns a line of the file, with a caret below the column."""
    if place is None:
        return []
    number, column = place
    line = source.lines[number].replace("\t", " ").replace("\r", "␍")
    return [f"{path}:{number + 1}:", f"    {line}", f"    {' ' * column}^"]


def is_required(kind, key, joined):
    if kind == "top" and joined:
        return key in ("fuel", "user", "root")
    return key not in OPTIONAL or (kind, key) in (("top", "text"), ("data", "base"))


def key_fault(kind, key, table, joined):
    """Returns what is wrong with a key of a table, or None."""
    known = key in FIELDS[kind] and not (joined and kind == "top" and key in ("entry", "text", "base", "data"))
    if key == "hex" and known and "text" in table and "hex" in table:
        return "its content is given twice, by `text` and by `hex`: leave one out"
    if key == "hex" and kind == "data" and "text" not in table and "hex" not in table:
        return "it has no content: `text` or `hex` is missing"
    if key in table and not known:
        if key in FIELDS[kind]:
            return f"`{key}` comes from the ELF file, so a partition for `link` has none: for `build` leave the ELF file out"
        near = difflib.get_close_matches(key, FIELDS[kind], 1)
        return f"the key `{key}` is unknown" + (f": is `{near[0]}` meant?" if near else f"; there are {', '.join(sorted(FIELDS[kind]))}")
    if key not in table and known and is_required(kind, key, joined):
        more = "; a partition for `link` has none, and needs the ELF file" if key in ("entry", "text") else ""
        return f"the key `{key}` is missing: {FIELDS[kind][key]}{more}"
    return None


def fits(what, value):
    if what == NUMBER:
        return isinstance(value, int) and not isinstance(value, bool) and 0 <= value < 1 << 32
    if what.startswith("an array"):
        return isinstance(value, list) and all(isinstance(it, dict) for it in value)
    if not isinstance(value, str):
        return False
    return what == STRING or (re.fullmatch("([0-9a-f]{2})*", value) if what == HEX else f'"{value}"' in what)


def value_column(line, column):
    """Returns the column of the value behind a key."""
    found = re.compile(r"[^=]*=\s*").match(line, column)
    return found.end() if found else column


def explain_key(which, name, partition, source, path, joined):
    kind, _, key = name.partition(".") if name.split(".")[0] in ("data", "tag", "fd", "file") and "." in name else ("top", "", name)
    for index, table in enumerate([partition] if kind == "top" else partition.get(kind, [])):
        fault = key_fault(kind, key, table, joined)
        if which == "kind":
            wrong = key in table and key in FIELDS[kind] and not fits(FIELDS[kind][key], table[key])
            fault = f"`{key}` has to be {FIELDS[kind][key]}" if wrong else None
        if fault:
            called = table.get("name", table.get("path"))
            where = "at the top" if kind == "top" else f"in [[{kind}]] " + (f"`{called}`" if called else f"number {index + 1}")
            place = source.place(kind, index, key)
            if which == "kind" and place:
                place = place[0], value_column(source.lines[place[0]], place[1])
            return shown(source, place, path) + [f"{where}: {fault}"]
    return []


def explain_line(number, reason, partition, source, path):
    if number == 0:
        procs = re.findall(r"^\s*\.proc\s+(\S+)", partition["text"], re.M)
        return shown(source, source.place("top", 0, "entry"), path) + [f"the entry is no procedure: `text` has {', '.join(procs) or 'none'}"]
    line = partition["text"].split("\n")[number - 1]
    place, code = source.text_line(number, line), line.split("#")[0].rstrip()
    raw = source.lines[place[0]] if place else line
    words = code.split()
    begin = len(code) - len(code.lstrip()) if reason in ("mnemonic", "twice") else len(code) - len(words[-1]) if words else 0
    begin = raw.index("\r") if "\r" in raw else begin
    out = shown(source, (place[0], begin), path) if place else [f"line {number} of `text`:", f"    {line}", f"    {' ' * begin}^"]
    if "\r" in raw:
        return [*out, f"{reason}: the line has a carriage return (CR, shown as ␍), which is no blank: lines of `text` end with LF alone"]
    out += [f"{reason}: {REASONS[reason]}"]
    shape = [it for it, names in SHAPES.items() if words and words[0] in names.split()]
    out += [f"`{words[0]}` takes {shape[0]}" if shape[0][0] != "n" else f"`{words[0]}` has {shape[0]}"] if shape else []
    if reason == "label" and words:
        there = [*equates(partition), *re.findall(r"^\s*(?:\.proc\s+)?([A-Za-z_][\w.]*):?\s*$", partition["text"], re.M)]
        near = difflib.get_close_matches(words[-1], there, 3)
        out += [f"near it: {', '.join(near)}"] if near else []
    return out


def explain_image(offset, reason, partition, source, path, elf):
    image = would_be(partition, elf)
    what = field_at(write_image(image), offset)
    out, found = [], re.search(r"(data range|tag|fd|file) (\d+)", what)
    key = next((it for it in RULES if it in what.split("`")[0]), None)
    if found:
        kind = found[1].split()[0]
        tables = ordered(partition, kind)
        index, table = tables[int(found[2])]
        out += shown(source, source.place(kind, index, key), path)
        what += f": `{table.get('name', table.get('path'))}`" if "`" not in what else ""
    elif key in ("fuel", "base", "root"):
        out += shown(source, source.place("top", 0, key), path)
    if reason == "order":
        return out + [f"order: {what}, and the one before it has that too: no two of a kind have the same"]
    if reason == "overlap":
        on = "another procedure is at that address" if "procedure" in what else "they lie on the text or on other data"
        return out + [f"overlap: {what}: {on}"]
    return out + [f"{reason}: {what}" + (f": {RULES[key]}" if key else "")]


def elf_field(data, offset, reason):
    """Returns what is at an offset of an ELF file, and what it has to be."""
    if reason == "limit":
        return "the file has at most 16777216 bytes"
    if offset == len(data):
        return f"the file has {len(data)} bytes, and its header alone has 52"
    if offset in ELF_FIELDS:
        return ELF_FIELDS[offset]
    programs, sections = struct.unpack_from("<II", data, 28)
    if reason in ELF_LOADS and programs <= offset < programs + 32 * struct.unpack_from("<H", data, 44)[0]:
        return f"program header {(offset - programs) // 32}: {ELF_LOADS[reason]}"
    return f"section header {(offset - sections) // 40}, of the symbol table: {ELF_SYMBOLS[reason]}"


def explain_refusal(said, path, elf):
    """Returns lines on what wedge said of a partition."""
    found = re.fullmatch(r"wedge: elf refused at (\d+): (\w+)", said)
    if found:
        return [f"{elf}: {found[2]}: {elf_field(read_bytes(elf), int(found[1]), found[2])}"]
    found = re.fullmatch(r"wedge: partition refused: (key|kind|line|image at|toml|limit) ?(.*)", said.replace("image refused", "partition refused: image"), re.S)
    if not found:
        return []
    data = read_bytes(path)
    source = Source(data.decode(errors="replace"))
    if found[1] == "limit":
        return [f"the file has {len(data)} bytes, and a partition at most 4194304"]
    try:
        partition = tomllib.loads(data.decode())
    except (tomllib.TOMLDecodeError, UnicodeDecodeError) as error:
        at = re.search(r"line (\d+), column (\d+)", str(error))
        return (shown(source, (int(at[1]) - 1, int(at[2]) - 1), path) if at else []) + [f"no TOML document: {error}"]
    if found[1] == "toml":
        return ["wedge takes it for no TOML document, and tomllib of Python takes it for one: look for what TOML 1.0 does not have"]
    if found[1] in ("key", "kind"):
        return explain_key(found[1], found[2], partition, source, path, bool(elf))
    if found[1] == "line":
        number, reason = found[2].split()
        return explain_line(int(number), reason, partition, source, path)
    offset, reason = found[2].split(": ")
    return explain_image(int(offset), reason, partition, source, path, elf)
