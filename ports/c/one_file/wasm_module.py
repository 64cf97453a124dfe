"""Reads a module of WebAssembly, and refuses what the translation to C doesn't know.

A module has one memory with addresses of 64 bits, globals of i64, at most one piece of data at a fixed address, and functions
over i32 and i64. Bytes are read as the binary format of WebAssembly says; instructions have the names of its text format."""
from collections import namedtuple


class Refused(Exception):
    """The module has a form that isn't known, so there is no translation."""


Instruction = namedtuple('Instruction', 'name given')  # its name, and a tuple of its immediates
Signature = namedtuple('Signature', 'parameters results')  # bits of each: 32 or 64
Code = namedtuple('Code', 'locals instructions')  # bits of each local beyond the parameters

BITS = {0x7F: 32, 0x7E: 64}
NO_RESULT = 0x40


class Bytes:
    """A part of the module's bytes, and where reading stands in it."""

    def __init__(self, data, at=0, end=None):
        self.data, self.at, self.end = data, at, len(data) if end is None else end

    def more(self):
        return self.at < self.end

    def byte(self):
        return self.take(1)[0]

    def take(self, count):
        if count > self.end - self.at:
            raise Refused('a module that ends too early')
        self.at += count
        return self.data[self.at - count:self.at]

    def part(self, count):
        self.take(count)
        return Bytes(self.data, self.at - count, self.at)

    def groups(self):
        """A number as groups of seven bits, the lowest first: its value, how many bits, and its last byte."""
        value = bits = 0
        while True:
            byte = self.byte()
            value |= (byte & 127) << bits
            bits += 7
            if byte < 128:
                return value, bits, byte

    def unsigned(self):
        return self.groups()[0]

    def signed(self):
        value, bits, last = self.groups()
        return value - (1 << bits) if last & 64 else value

    def text(self):
        return self.take(self.unsigned()).decode()

    def expect(self, byte, what):
        if self.byte() != byte:
            raise Refused(what)


# ---- instructions

PLAIN = {0x00: 'unreachable', 0x01: 'nop', 0x0B: 'end', 0x0F: 'return', 0x1A: 'drop', 0x1B: 'select',
         0xA7: 'i32.wrap_i64', 0xAC: 'i64.extend_i32_s', 0xAD: 'i64.extend_i32_u',
         0xC0: 'i32.extend8_s', 0xC1: 'i32.extend16_s', 0xC2: 'i64.extend8_s', 0xC3: 'i64.extend16_s', 0xC4: 'i64.extend32_s'}
COMPARISONS = 'eqz eq ne lt_s lt_u gt_s gt_u le_s le_u ge_s ge_u'.split()
ARITHMETIC = 'clz ctz popcnt add sub mul div_s div_u rem_s rem_u and or xor shl shr_s shr_u rotl rotr'.split()
for _type, _compares, _computes in (('i32', 0x45, 0x67), ('i64', 0x50, 0x79)):
    PLAIN.update((_compares + i, _type + '.' + name) for i, name in enumerate(COMPARISONS))
    PLAIN.update((_computes + i, _type + '.' + name) for i, name in enumerate(ARITHMETIC))
# Those that have one number beside them: a depth of blocks, a function, a local or a global.
ONE_NUMBER = {0x0C: 'br', 0x0D: 'br_if', 0x10: 'call', 0x20: 'local.get', 0x21: 'local.set', 0x22: 'local.tee',
              0x23: 'global.get', 0x24: 'global.set'}
BLOCKS = {0x02: 'block', 0x03: 'loop'}
CONSTANTS = {0x41: 'i32.const', 0x42: 'i64.const'}
ACCESSES = {0x28: 'i32.load', 0x29: 'i64.load', 0x2C: 'i32.load8_s', 0x2D: 'i32.load8_u', 0x2E: 'i32.load16_s', 0x2F: 'i32.load16_u',
            0x30: 'i64.load8_s', 0x31: 'i64.load8_u', 0x32: 'i64.load16_s', 0x33: 'i64.load16_u', 0x34: 'i64.load32_s',
            0x35: 'i64.load32_u', 0x36: 'i32.store', 0x37: 'i64.store', 0x3A: 'i32.store8', 0x3B: 'i32.store16',
            0x3C: 'i64.store8', 0x3D: 'i64.store16', 0x3E: 'i64.store32'}
# After the byte FC: the name, and how many zeros follow, which name the one memory.
BULK = {10: ('memory.copy', 2), 11: ('memory.fill', 1)}


def read_instruction(s):
    code = s.byte()
    if code in PLAIN:
        return Instruction(PLAIN[code], ())
    if code in ONE_NUMBER:
        return Instruction(ONE_NUMBER[code], (s.unsigned(),))
    if code in BLOCKS:
        kind = s.byte()
        if kind != NO_RESULT and kind not in BITS:
            raise Refused('a block of another type than i32, i64 or none')
        return Instruction(BLOCKS[code], (BITS.get(kind),))
    if code in CONSTANTS:
        return Instruction(CONSTANTS[code], (s.signed(),))
    if code in ACCESSES:
        alignment = 1 << s.unsigned()
        return Instruction(ACCESSES[code], (alignment, s.unsigned()))
    if code == 0x0E:
        return Instruction('br_table', tuple(s.unsigned() for _ in range(s.unsigned() + 1)))
    if code == 0xFC:
        which = s.unsigned()
        if which not in BULK:
            raise Refused('an instruction fc %d' % which)
        name, zeros = BULK[which]
        for _ in range(zeros):
            s.expect(0, 'a second memory')
        return Instruction(name, ())
    raise Refused('an instruction %02x' % code)


# ---- sections

class Module:
    """What a module has: `functions` are all of it, the imports first, by their signatures."""

    def __init__(self, data):
        s = Bytes(data)
        if s.take(8) != b'\0asm\1\0\0\0':
            raise Refused('no module of WebAssembly')
        self.signatures, self.functions, self.globals, self.code, self.data = [], [], [], [], []
        self.imports, self.exports, self.names, self.memories = [], {}, {}, 0
        while s.more():
            kind = s.byte()
            self.section(kind, s.part(s.unsigned()))
        if self.memories != 1:
            raise Refused('%d memories' % self.memories)
        if len(self.imports) + len(self.code) != len(self.functions):
            raise Refused('functions without code')

    def section(self, kind, s):
        if kind == 0:
            if s.text() == 'name':
                self.read_names(s)
            return
        if kind == 12:  # how many pieces of data there are, once more
            return
        if kind not in self.SECTIONS:
            raise Refused('a section of kind %d' % kind)
        for _ in range(s.unsigned()):
            self.SECTIONS[kind](self, s)
        if s.more():
            raise Refused('a section with more than it says')

    def read_names(self, s):
        while s.more():
            kind = s.byte()
            part = s.part(s.unsigned())
            if kind == 1:  # of functions
                for _ in range(part.unsigned()):
                    i = part.unsigned()
                    self.names[i] = part.text()

    def read_signature(self, s):
        s.expect(0x60, 'a type that is no function')
        parameters, results = ([s.byte() for _ in range(s.unsigned())] for _ in range(2))
        if len(results) > 1 or any(t not in BITS for t in parameters + results):
            raise Refused('a function of floats, or with two results')
        self.signatures.append(Signature([BITS[t] for t in parameters], [BITS[t] for t in results]))

    def read_import(self, s):
        s.text()
        name = s.text()
        s.expect(0, 'an import that is no function')
        self.imports.append(name)
        self.functions.append(self.signatures[s.unsigned()])

    def read_function(self, s):
        self.functions.append(self.signatures[s.unsigned()])

    def read_table(self, s):
        """The linker makes one. Nothing can be called through it, since `call_indirect` is refused."""
        s.byte()
        has_most = s.byte() & 1
        s.unsigned()
        if has_most:
            s.unsigned()

    def read_memory(self, s):
        limits = s.byte()
        if not limits & 4:
            raise Refused('a memory with addresses of 32 bits')
        s.unsigned()
        if limits & 1:
            s.unsigned()
        self.memories += 1

    def read_global(self, s):
        if s.byte() != 0x7E:
            raise Refused('a global of another type than i64')
        s.byte()
        self.globals.append(self.fixed_number(s))

    def read_export(self, s):
        name, kind, i = s.text(), s.byte(), s.unsigned()
        if kind == 0:
            self.exports[i] = name

    def read_code(self, s):
        body = s.part(s.unsigned())
        locals_ = []
        for _ in range(body.unsigned()):
            count, kind = body.unsigned(), body.byte()
            if kind not in BITS:
                raise Refused('a local of another type than i32 or i64')
            locals_ += [BITS[kind]] * count
        instructions = []
        while body.more():
            instructions.append(read_instruction(body))
        self.code.append(Code(locals_, instructions))

    def read_data(self, s):
        s.expect(0, 'data with no fixed address')
        at = self.fixed_number(s)
        self.data.append((at, s.take(s.unsigned())))

    @staticmethod
    def fixed_number(s):
        s.expect(0x42, 'a number that is computed at the start')
        value = s.signed()
        s.expect(0x0B, 'a number that is computed at the start')
        return value

    SECTIONS = {1: read_signature, 2: read_import, 3: read_function, 4: read_table, 5: read_memory, 6: read_global,
                7: read_export, 10: read_code, 11: read_data}
