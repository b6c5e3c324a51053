"""What one instruction of a text does, as far as the code before it says. Shared by the scripts beside it."""
import struct

REGISTERS = "zero ra sp gp tp t0 t1 t2 s0 s1 a0 a1 a2 a3 a4 a5 a6 a7 s2 s3 s4 s5 s6 s7 s8 s9 s10 s11 t3 t4 t5 t6".split()
LOADS = {0: "lb", 1: "lh", 2: "lw", 4: "lbu", 5: "lhu"}
STORES = {0: "sb", 1: "sh", 2: "sw"}
CALLS = (
    "exit sthread_create sthread_join tag_new tag_delete smalloc sfree sc_new sc_mem_add sc_fd_add sc_cgate_add sc_user "
    "sc_root cgate_make cgate fd_read fd_append fd_close file_open"
).split()
WINDOWS, WINDOW, PAGE = 0x40000000, 0x10000, 4096
PRIVATE, PRIVATE_END = 0x20000000, 0x20020000
ECALL, EBREAK, RET = 0x73, 0x100073, 0x8067
MASK = 0xFFFFFFFF


def signed(value, bits):
    value &= (1 << bits) - 1
    return value - (1 << bits) if value >> (bits - 1) else value


def distance(word):
    """Returns how far a jump or a branch leads, or None where the word is neither."""
    if word & 127 == 0x6F:
        bits = (word >> 31) << 20 | (word >> 12 & 255) << 12 | (word >> 20 & 1) << 11 | (word >> 21 & 1023) << 1
        return signed(bits, 21)
    if word & 127 == 0x63:
        bits = (word >> 31) << 12 | (word >> 7 & 1) << 11 | (word >> 25 & 63) << 5 | (word >> 8 & 15) << 1
        return signed(bits, 13)
    return None


def access(word):
    """Returns the text of a load or a store, its base register, its offset and its width, or None."""
    kind, name = word >> 12 & 7, None
    if word & 127 == 0x03 and kind in LOADS:
        name, data, offset = LOADS[kind], word >> 7 & 31, signed(word >> 20, 12)
    elif word & 127 == 0x23 and kind in STORES:
        name, data, offset = STORES[kind], word >> 20 & 31, signed(word >> 25 << 5 | word >> 7 & 31, 12)
    if name is None:
        return None
    base = word >> 15 & 31
    return f"{name} {REGISTERS[data]}, {offset}({REGISTERS[base]})", base, offset


class Code:
    """The text of an image."""

    def __init__(self, image):
        self.image = image
        self.words = [it for it, in struct.iter_unpack("<I", image.words)]
        self.starts = {address for _, address in image.procedures}
        self.tabled = False
        for index, word in enumerate(self.words):
            at = image.base + 4 * index
            if distance(word) is not None:
                self.starts.add(at + distance(word) & MASK)
            # A jump to where a register says, which is neither a call nor a return: as for a table of a `switch`.
            self.tabled |= word & 127 == 0x67 and word >> 7 & 31 == 0 and word != RET

    def word_at(self, pc):
        index = (pc - self.image.base) // 4
        return self.words[index] if 0 <= index < len(self.words) and pc % 4 == 0 else None

    def known_at(self, pc):
        """Returns the registers whose value the straight code before a pc fixes."""
        if self.tabled:
            return {0: 0}
        start = pc
        while start not in self.starts and self.word_at(start - 4) is not None:
            if self.word_at(start - 4) & 127 in (0x6F, 0x67):
                break
            start -= 4
        known = {0: 0}
        for at in range(start, pc, 4):
            step(known, at, self.word_at(at))
            known[0] = 0
        return known

    def told_at(self, pc):
        """Returns the instruction at a pc as text, with the address or the call where the code before it fixes that."""
        word = self.word_at(pc)
        if word == ECALL:
            call = self.known_at(pc).get(17)
            return "ecall" if call is None else f"svc {CALLS[call]}" if call < len(CALLS) else f"ecall {call}, which is no call"
        if word == EBREAK:
            return "ebreak"
        found = access(word)
        if found is None:
            leads = distance(word)
            return "ret" if word == RET else f"the word 0x{word:08x}" if leads is None else f"to {pc + leads & MASK:08x}"
        text, base, offset = found
        value = self.known_at(pc).get(base)
        if value is None:
            return text
        address = value + offset & MASK
        return f"{text}, at {address:08x} by the code before it: {self.lies_at(address)}"

    def lies_at(self, address):
        """Returns what is at an address."""
        image = self.image
        if image.base <= address < image.base + len(image.words):
            return "the text"
        if PRIVATE <= address < PRIVATE_END:
            return "the stack and heap"
        if any(base <= address < base + len(content) for base, content in image.ranges):
            return "the data"
        slot, offset = divmod(address - WINDOWS, WINDOW)
        if not 0 <= slot < 4096:
            return "no memory"
        if slot >= len(image.tags):
            return f"the window of slot {slot}, where no declared tag lives"
        name, pages = image.tags[slot][0].decode(), image.tags[slot][1]
        if offset >= pages * PAGE:
            return f"past the {pages * PAGE} bytes of tag `{name}`"
        return f"tag `{name}` + {offset}"


def step(known, at, word):
    """Does what an instruction does to the registers whose value is known."""
    code, target, kind, source = word & 127, word >> 7 & 31, word >> 12 & 7, word >> 15 & 31
    value, left = None, known.get(source)
    if code in (0x37, 0x17):
        value = (word & 0xFFFFF000) + (at if code == 0x17 else 0)
    elif code == 0x13 and left is not None and kind in (0, 1):
        value = left + signed(word >> 20, 12) if kind == 0 else left << (word >> 20 & 31)
    elif code == 0x33 and kind == 0 and word >> 25 in (0, 32):
        right = known.get(word >> 20 & 31)
        if left is not None and right is not None:
            value = left + right if word >> 25 == 0 else left - right
    if word == ECALL:
        for register in (10, 11, 12):
            known.pop(register, None)
    elif code not in (0x63, 0x23, 0x0F):
        known.pop(target, None)
        if value is not None:
            known[target] = value & MASK
