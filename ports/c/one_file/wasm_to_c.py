#!/usr/bin/env python3
"""Translates a module of WebAssembly into functions of C, over the macros of runtime.h. usage: wasm_to_c.py MODULE >FUNCTIONS

It stops at any form that it doesn't know. A function of the module becomes a function of C, a local a variable l0, l1 .., and a
block a label, since each branch of WebAssembly is a jump to the end of a block or to the start of a loop, as C's goto is. What the
module's stack holds is known at each place, so there is no stack in C: it is kept here, as expressions, which are written out where
something takes them. An expression only reads. So it may be written later than the module computes it, as long as nothing that it
reads has changed in between: `keep` puts it into a variable t1, t2 .. before that.

What a read or a division does where it isn't allowed is a trap, which ends the call of the store. A trap may come in another order
than the module says, or not at all where nothing takes the number; but never after a write, a call or a copy that the module
has behind it.

A loop that moves, compares or joins bytes one by one becomes one such operation, which looks at its addresses once. The module is
made for a processor without vectors, so that its compiler leaves such loops as they are.

The data of the module stands at an address that no memory has. Each use of it has to be a read whose bounds are known here; it
becomes a read of an array of constants. Any other use of such an address is refused."""
import re
import sys

from wasm_module import Module, Refused

SLACK = 4096  # IPL_SLACK of runtime.h: an address that is in order is so for accesses that begin and end so many bytes behind it
FOLD = 256  # the most that is added to an address and still taken for a part of the offset
LEAST_DATA = 1 << 30  # the data stands there or above; runtime.h keeps each memory below it
MOST_OFFSET = 1 << 20  # of an access that isn't of the data
MOST_OPERATIONS = 12  # of an expression; a longer one is kept in a variable

TYPE = {32: 'ipl_u32', 64: 'ipl_u64'}
WRAPPING = {'add': '+', 'sub': '-', 'mul': '*', 'and': '&', 'or': '|', 'xor': '^'}
COMPARING = {'eq': '==', 'ne': '!=', 'lt': '<', 'gt': '>', 'le': '<=', 'ge': '>='}
EXTENDING = {'extend8_s': 8, 'extend16_s': 16, 'extend32_s': 32}
# The lines of a loop over bytes, and what is written for it. Each word is a local, another one for each, and K is a number.
LOOPS_OVER_BYTES = (
    # A move from the first byte on; both addresses are counted up.
    (('IPL_S8(to, 0u, IPL_L8(from, 0u));', 'to = (to + 1u);', 'from = (from + 1u);', 'n = (n - 1u);', 'if (n != 0u)'),
     ('IPL_RISE(to, from, n);', 'to = (to + n);', 'from = (from + n);', 'n = 0u;')),
    # The same, of addresses that are always as far apart.
    (('IPL_S8(to, 0u, IPL_L8((to + apart), 0u));', 'to = (to + 1u);', 'n = (n - 1u);', 'if (n != 0u)'),
     ('IPL_RISE(to, (to + apart), n);', 'to = (to + n);', 'n = 0u;')),
    # The same, by an index.
    (('IPL_S8((to + i), 0u, IPL_L8((from + i), 0u));', 'i = (i + 1u);', 'if (i != K)'),
     ('IPL_RISE((to + i), (from + i), (K - i));', 'i = K;')),
    # From the last byte down, by an index that ends at the first's, 0.
    (('IPL_S8((to + i), 0u, IPL_L8((from + i), 0u));', 'i = (i - 1u);', 'if (i != 18446744073709551615ull)'),
     ('IPL_FALL(to, from, (i + 1u));', 'i = 18446744073709551615ull;')),
    # The same, by one that ends where a sum with it is 0.
    (('i = (i - 1u);', 'IPL_S8((i + to), 0u, IPL_L8((i + from), 0u));', 'if ((less + i) != 0u)'),
     ('IPL_FALL((to - less), (from - less), (less + i));', 'i = (0u - less);')),
    # Whether bytes differ.
    (('r = (r | (ipl_u32)(IPL_L8((one + i), 0u) != IPL_L8((other + i), 0u)));', 'i = (i + 1u);', 'if (i != K)'),
     ('r = (r | IPL_DIFFER((one + i), (other + i), (K - i)));', 'i = K;')),
    # Which bits bytes have.
    (('r = (IPL_L8((from + i), 0u) | r);', 'i = (i + 1u);', 'if (i != K)'),
     ('r = (IPL_BITS((from + i), (K - i)) | r);', 'i = K;')),
)
# Bytes of the access, by the name of a load or a store behind its type; else all bytes of the type.
BYTES = {'8': 1, '16': 2, '32': 4}


class Value:
    """What stands on the module's stack: an expression of C, which changes nothing.

    `text` is an operand for any operator: a name, a number, a call, a cast, or in parentheses. It has `bits` bits and is from `low` to
    `high`, as a number without a sign. `locals` are those that it reads. A `fleeting` one reads memory or may trap. A `truth` is a
    comparison, C's 0 or 1. `number` is its number, where it is one; `base` is (text, n) where it is that text plus n, 0 < n <= FOLD.
    `of_data`: it is an address of the data, or computed from one."""

    def __init__(self, text, bits, of=(), fleeting=False, number=None, truth=False, bounds=None):
        self.text, self.bits, self.number, self.truth = text, bits, number, truth
        self.locals = frozenset().union(*(v.locals for v in of))
        self.fleeting = fleeting or any(v.fleeting for v in of)
        self.operations = 1 + sum(v.operations for v in of) if of else 0
        self.base = None
        self.of_data = False
        self.low, self.high = (0, 1) if truth else (0, (1 << bits) - 1)
        # Bounds that don't fit are those of a number that may have wrapped: it can be anything then.
        if bounds and bounds[1] < 1 << bits:
            self.low, self.high = bounds

    @staticmethod
    def constant(n, bits):
        n &= (1 << bits) - 1
        if bits == 32:
            text = '%du' % n if n < 1 << 16 else '(ipl_u32)%du' % n
        else:
            text = '(ipl_u64)%du' % n if n < 1 << 16 else '%dull' % n
        return Value(text, bits, number=n, bounds=(n, n))

    @staticmethod
    def variable(name, bits, local=None):
        v = Value(name, bits)
        if local is not None:
            v.locals = frozenset([local])
        return v

    def is_variable(self):
        return re.fullmatch(r'[lt]\d+', self.text) is not None

    def is_fixed(self):
        """Nothing that comes after can change it: a number, or a variable of ours, which is written where it is made alone."""
        return self.number is not None or re.fullmatch(r't\d+', self.text) is not None

    def operand(self):
        """As a number of its bits: C's truth is an int."""
        return '(%s)%s' % (TYPE[self.bits], self.text) if self.truth else self.text

    def beside(self, other):
        """As an operand beside one of as many bits: C makes a small number as wide as the other."""
        if self.number is not None and other.number is None:
            return self.text.replace('(ipl_u64)', '')
        return self.operand()

    def condition(self):
        return self.text[1:-1] if self.truth else self.text + ' != 0'


class Block:
    """A block or a loop that is being read: where a branch to it goes, and what it leaves on the stack."""

    def __init__(self, label, is_loop, bits, result, height):
        self.label, self.is_loop, self.bits, self.result, self.height = label, is_loop, bits, result, height


class Line:
    """A line of C: where `sets` isn't None, that variable of ours gets the text; a call is made also where nothing reads it."""

    def __init__(self, text, sets=None, is_call=False):
        self.text, self.sets, self.is_call = text, sets, is_call

    def written(self):
        return '    %s = %s;' % (self.sets, self.text) if self.sets else self.text


class Function:
    """One function of the module, on its way to C."""

    def __init__(self, module, i):
        self.module, self.i = module, i
        self.signature = module.functions[i]
        code = module.code[i - len(module.imports)]
        self.local_bits = self.signature.parameters + code.locals
        self.instructions = iter(code.instructions)
        self.stack, self.blocks, self.lines, self.variables = [], [], [], []
        self.labels, self.jumped_to = 0, set()
        self.looks_at_addresses = False

    # ---- what is written

    def out(self, text):
        self.lines.append(Line('    ' + text))

    def new_variable(self, bits):
        self.variables.append(bits)
        return 't%d' % len(self.variables)

    def set_variable(self, text, bits, is_call=False):
        name = self.new_variable(bits)
        self.lines.append(Line(text, name, is_call))
        return Value.variable(name, bits)

    # ---- the stack

    def push(self, v):
        if v.operations > MOST_OPERATIONS and not v.of_data:
            v = self.kept(v)
        self.stack.append(v)

    def pop(self):
        """What is taken for anything but an access or a sum: no address of the data may get there."""
        v = self.stack.pop()
        if v.of_data:
            raise Refused('an address of the data that is no place of a read, in ' + self.title())
        return v

    def kept(self, v):
        if v.of_data:
            raise Refused('an address of the data that is kept, in ' + self.title())
        t = self.set_variable(v.operand(), v.bits)
        t.low, t.high = v.low, v.high
        return t

    def keep(self, which):
        """What stands on the stack and reads what changes now gets a variable."""
        self.stack = [self.kept(v) if which(v) and not v.is_fixed() else v for v in self.stack]

    def keep_fleeting(self):
        self.keep(lambda v: v.fleeting)

    # ---- numbers

    def unary(self, name, bits):
        x = self.pop()
        if name == 'eqz':
            self.push(Value('(!%s)' % x.text if x.truth else '(%s == 0)' % x.text, 32, [x], truth=True))
        elif name == 'wrap_i64':
            self.push(Value('(ipl_u32)' + x.operand(), 32, [x], bounds=(x.low, x.high)))
        elif name == 'extend_i32_u':
            self.push(Value('(ipl_u64)' + x.text, 64, [x], bounds=(x.low, x.high)))
        elif name == 'extend_i32_s':
            self.push(Value(self.signed(x.operand(), 32, 64), 64, [x]))
        elif name in EXTENDING:
            self.push(Value(self.signed(x.operand(), EXTENDING[name], bits), bits, [x]))
        else:
            self.push(Value('ipl_%s%d(%s)' % (name, bits, x.operand()), bits, [x], bounds=(0, bits)))

    @staticmethod
    def signed(text, of, to):
        """The lowest bits of a number, as one with a sign, with more bits. C leaves open what a cast of a number that is too large
        for a type with a sign gives; each compiler wraps, and runtime.h asserts it."""
        return '(ipl_u%d)(ipl_s%d)(ipl_s%d)%s' % (to, to, of, text)

    def binary(self, name, bits):
        y, x = self.stack.pop(), self.stack.pop()
        if (x.of_data or y.of_data) and name != 'add':
            raise Refused('an address of the data in another operation than a sum, in ' + self.title())
        kind, _, sign = name.partition('_')
        if name in WRAPPING:
            v = self.wrapping(name, bits, x, y)
        elif kind in COMPARING:
            v = self.comparison(kind, sign == 's', bits, x, y)
        elif kind in ('div', 'rem'):
            v = self.division(kind, sign, bits, x, y)
        elif kind in ('shl', 'shr'):
            v = self.shift(kind, sign == 's', bits, x, y)
        else:
            v = Value('ipl_%s%d(%s, %s)' % (name, bits, x.operand(), y.operand()), bits, [x, y])
        self.push(v)

    def wrapping(self, name, bits, x, y):
        """C's operators on numbers without a sign wrap as the module's do."""
        bounds = {'add': lambda: (x.low + y.low, x.high + y.high),
                  'and': lambda: (0, min(x.high, y.high)),
                  'or': lambda: (0, (1 << max(x.high, y.high).bit_length()) - 1),
                  'xor': lambda: (0, (1 << max(x.high, y.high).bit_length()) - 1)}.get(name, lambda: None)()
        if name == 'add' and bits == 64 and y.number is not None and y.number >> 63 and x.number is None:
            return Value('(%s - %s)' % (x.operand(), Value.constant(-y.number, 64).beside(x)), bits, [x, y])
        v = Value('(%s %s %s)' % (x.beside(y), WRAPPING[name], y.beside(x)), bits, [x, y], bounds=bounds)
        v.of_data = x.of_data or y.of_data
        if name == 'add' and y.number is not None and 0 < y.number <= FOLD and x.is_variable():
            v.base = (x.text, y.number)
        return v

    def comparison(self, kind, sign, bits, x, y):
        if sign:
            a, b = ('(ipl_s%d)%s' % (bits, v.operand()) for v in (x, y))
        else:
            a, b = x.beside(y), y.beside(x)
        return Value('(%s %s %s)' % (a, COMPARING[kind], b), 32, [x, y], truth=True)

    def division(self, kind, sign, bits, x, y):
        """By a number that isn't 0, without a sign, it is C's; else a trap where it isn't defined."""
        if sign == 'u' and y.number not in (None, 0):
            operator = '/' if kind == 'div' else '%'
            return Value('(%s %s %s)' % (x.operand(), operator, y.beside(x)), bits, [x, y])
        text = 'ipl_%s%s%d(m, %s, %s)' % (kind, sign, bits, x.operand(), y.operand())
        return Value(text, bits, [x, y], fleeting=True)

    def shift(self, kind, sign, bits, x, y):
        """By its lowest bits, as the module does: C says nothing of a shift by as many bits as there are. Of a number with a sign
        C leaves a shift to the right open; each compiler keeps the sign, and runtime.h asserts it."""
        known = y.number is not None
        by = '%d' % (y.number % bits) if known else '(%s & %du)' % (y.operand(), bits - 1)
        if sign:
            return Value('(ipl_u%d)((ipl_s%d)%s >> %s)' % (bits, bits, x.operand(), by), bits, [x, y])
        bounds = None
        if known:
            n = y.number % bits
            bounds = (x.low << n, x.high << n) if kind == 'shl' else (x.low >> n, x.high >> n)
        return Value('(%s %s %s)' % (x.operand(), '<<' if kind == 'shl' else '>>', by), bits, [x, y], bounds=bounds)

    def select(self):
        c, y, x = self.pop(), self.pop(), self.pop()
        text = '(%s ? %s : %s)' % (c.condition(), x.operand(), y.operand())
        self.push(Value(text, x.bits, [c, x, y], bounds=(min(x.low, y.low), max(x.high, y.high))))

    # ---- memory

    def place(self, a, offset, size):
        """The first arguments of an access's macro, and the end of its name: '' where the address is looked at for all offsets up
        to SLACK at once, F where it is looked at with its offset, T where it is of the data."""
        start, length = self.module.data_at, self.module.data_size
        if start <= a.low + offset and a.high + offset + size <= start + length:
            if offset > start:
                return '(%s + %du), 0u' % (a.text, offset - start), 'T'
            return '%s, %du' % (a.text, start - offset), 'T'
        if a.of_data or a.number is not None or offset > MOST_OFFSET:
            raise Refused('an access whose bounds are not known, in ' + self.title())
        self.looks_at_addresses = True
        if a.base and a.base[1] + offset + size <= SLACK:
            # Where the sum wraps, the address without it is refused, and in the module the lowest FOLD bytes are read, which
            # are the last of the stack.
            return '%s, %du' % (a.base[0], a.base[1] + offset), ''
        return '%s, %du' % (a.text, offset), 'F' if offset + size > SLACK else ''

    def load(self, name, bits, alignment, offset):
        kind, _, sign = name[len('load'):].partition('_')
        size = BYTES.get(kind, bits // 8)
        a = self.stack.pop()
        place, end = self.place(a, offset, size)
        text = 'IPL_L%d%s%s(%s)' % (size * 8, 'U' if alignment < size else '', end, place)
        if sign == 's':
            v = Value(self.signed(text, size * 8, bits), bits, [a], fleeting=end != 'T')
        else:
            widened = '(ipl_u64)' + text if bits == 64 and size < 8 else text
            v = Value(widened, bits, [a], fleeting=end != 'T', bounds=(0, (1 << 8 * size) - 1))
        self.push(v)

    def store(self, name, bits, alignment, offset):
        size = BYTES.get(name[len('store'):], bits // 8)
        x = self.pop()
        place, end = self.place(self.stack.pop(), offset, size)
        if end == 'T':
            raise Refused('a store into the data, in ' + self.title())
        self.keep_fleeting()
        self.out('IPL_S%d%s%s(%s, %s);' % (size * 8, 'U' if alignment < size else '', end, place, x.operand()))

    def bulk(self, macro):
        n, second, to = self.pop(), self.pop(), self.pop()
        self.keep_fleeting()
        self.looks_at_addresses = True
        self.out('%s(%s, %s, %s);' % (macro, to.operand(), second.operand(), n.operand()))

    # ---- blocks and branches

    def enter(self, is_loop, bits):
        """All that stands below a block is fixed, so that whatever is done within leaves it alone."""
        self.keep(lambda v: True)
        self.labels += 1
        result = self.new_variable(bits) if bits else None
        block = Block('L%d' % self.labels, is_loop, bits, result, len(self.stack))
        self.blocks.append(block)
        if is_loop:
            self.lines.append(Line(block.label + ':;'))

    def jump(self, depth):
        """Statements that go to a block: to the start of a loop, or behind a block, with its result in its variable."""
        if depth == len(self.blocks):
            return self.leave()
        block = self.blocks[-1 - depth]
        self.jumped_to.add(block.label)
        go = 'goto %s;' % block.label
        return '%s = %s; %s' % (block.result, self.top(), go) if block.result and not block.is_loop else go

    def top(self):
        v = self.pop()
        self.stack.append(v)
        return v.operand()

    def leave(self):
        return 'return %s;' % self.top() if self.signature.results else 'return;'

    def table(self, depths):
        self.out('switch (%s) {' % self.pop().operand())
        cases = {}
        for k, depth in enumerate(depths[:-1]):
            if depth != depths[-1]:
                cases.setdefault(depth, []).append('case %du: ' % k)
        for depth, names in cases.items():
            self.out(''.join(names) + self.jump(depth))
        self.out('default: ' + self.jump(depths[-1]))
        self.out('}')

    def end(self, reached):
        """The end of the innermost block, or of the function."""
        if not self.blocks:
            if reached and self.signature.results:
                self.out(self.leave())
            return
        block = self.blocks.pop()
        if reached:
            if block.result:
                self.out('%s = %s;' % (block.result, self.pop().operand()))
            if len(self.stack) != block.height:
                raise Refused('a block that leaves more than its result, in ' + self.title())
        del self.stack[block.height:]
        if not block.is_loop:
            self.lines.append(Line(block.label + ':;'))
        if block.result:
            self.stack.append(Value.variable(block.result, block.bits))

    def skip(self):
        """What stands behind a branch that is always taken is never reached: all up to the end of the block."""
        depth = 0
        for instruction in self.instructions:
            if instruction.name in ('block', 'loop'):
                depth += 1
            elif instruction.name == 'end' and depth:
                depth -= 1
            elif instruction.name == 'end':
                return self.end(False)
        raise Refused('a block without an end')

    # ---- the rest

    def call(self, i):
        parameters, results = self.module.functions[i]
        given = [self.pop() for _ in parameters][::-1]
        self.keep_fleeting()
        text = '%s(%s)' % (name_of(self.module, i), ', '.join(['m'] + [v.operand() for v in given]))
        if results:
            self.stack.append(self.set_variable(text, results[0], is_call=True))
        else:
            self.out(text + ';')

    def set_local(self, i):
        v = self.pop()
        self.keep(lambda w: i in w.locals)
        self.out('l%d = %s;' % (i, v.operand()))
        return v

    def constant(self, n, bits):
        v = Value.constant(n, bits)
        # The address behind the data's last byte is the place of what is empty, and read by nothing.
        v.of_data = self.module.data_at <= v.number < self.module.data_at + self.module.data_size
        self.push(v)

    def translate(self, name, given):
        """One instruction. True: what comes after it, up to the end of the block, isn't reached."""
        kind, _, operation = name.partition('.')
        if name == 'unreachable':
            self.out('ipl_trap(m);')
            return True
        if name in ('br', 'br_table', 'return'):
            if name == 'br_table':
                self.table(given)
            else:
                self.out(self.jump(given[0]) if name == 'br' else self.leave())
            return True
        if name == 'br_if':
            c = self.pop()
            to = self.jump(given[0])
            self.out('if (%s) %s' % (c.condition(), to if to.count(';') == 1 else '{ %s }' % to))
        elif name in ('block', 'loop'):
            self.enter(name == 'loop', given[0])
        elif name == 'end':
            self.end(True)
        elif name == 'call':
            self.call(given[0])
        elif name == 'drop':
            self.pop()
        elif name == 'select':
            self.select()
        elif kind == 'local':
            i = given[0]
            if operation != 'get':
                self.set_local(i)
            if operation != 'set':
                self.push(Value.variable('l%d' % i, self.local_bits[i], local=i))
        elif name == 'global.get':
            self.stack.append(self.set_variable('IPL_G(%d)' % given[0], 64))
        elif name == 'global.set':
            self.out('IPL_G(%d) = %s;' % (given[0], self.pop().operand()))
        elif kind == 'memory':
            self.bulk('IPL_COPY' if operation == 'copy' else 'IPL_FILL')
        elif name != 'nop':
            self.compute(operation, {'i32': 32, 'i64': 64}[kind], given)
        return False

    def compute(self, operation, bits, given):
        if operation == 'const':
            self.constant(given[0], bits)
        elif operation.startswith('load'):
            self.load(operation, bits, *given)
        elif operation.startswith('store'):
            self.store(operation, bits, *given)
        elif operation in ('eqz', 'clz', 'ctz', 'popcnt') or operation.startswith(('wrap', 'extend')):
            self.unary(operation, bits)
        else:
            self.binary(operation, bits)

    def title(self):
        return self.module.names.get(self.i, 'function %d' % self.i)

    def text(self):
        for instruction in self.instructions:
            if self.translate(*instruction):
                self.skip()
        lines, unread = without_unread(with_spans(self.lines))
        lines = [line.written() for line in lines if not line.text.endswith(':;') or line.text[:-2] in self.jumped_to]
        start = ['    IPL_ENDS'] if self.looks_at_addresses else []
        return '\n'.join([self.header() + ' {'] + self.declarations(unread) + start + lines + ['}'])

    def header(self):
        return header_of(self.module, self.i, ['l%d' % k for k in range(len(self.signature.parameters))])

    def declarations(self, unread):
        """All variables stand at the front, since C++ lets no goto pass one. A local begins with 0, as in the module."""
        names = {32: [], 64: []}
        first = len(self.signature.parameters)
        for i, bits in enumerate(self.local_bits[first:]):
            names[bits].append('l%d = 0' % (first + i))
        for i, bits in enumerate(self.variables):
            if 't%d' % (i + 1) not in unread:
                names[bits].append('t%d' % (i + 1))
        return ['    %s %s;' % (TYPE[bits], ', '.join(names[bits][k:k + 16])) for bits in names for k in range(0, len(names[bits]), 16)]


def pattern_of(lines):
    names = set()

    def piece(word):
        name = word.group()
        if name in names:
            return '(?P=%s)' % name
        names.add(name)
        return r'(?P<K>\d+u(?:ll)?)' if name == 'K' else r'(?P<%s>l\d+)' % name

    return re.compile(re.sub(r'\b(?:to|from|apart|less|one|other|n|i|r|K)\b', piece, re.escape(''.join(lines))))


PATTERNS = [(pattern_of(lines), re.sub(r'\b(to|from|apart|less|one|other|n|i|r|K)\b', r'{\1}', '\n'.join(written)))
            for lines, written in LOOPS_OVER_BYTES]


def instead_of(loop):
    """What is written for the lines of a loop, the last without its jump, where it is one over bytes."""
    text = re.sub(r'if \(!\((l\d+) == 0\)\)', r'if (\1 != 0u)', ''.join(loop))
    for pattern, written in PATTERNS:
        found = pattern.fullmatch(text)
        if found and len(set(found.groups())) == len(found.groups()):
            return written.format(**found.groupdict()).split('\n')
    return None


def with_spans(lines):
    """The lines with what looks at its addresses once for each loop over bytes."""
    result, start = [], None
    for line in lines:
        if line.text.endswith(':;'):
            start = len(result)
        result.append(line)
        if start is not None and line.text.endswith(' goto %s;' % result[start].text[:-2]):
            loop = [it.written().strip() for it in result[start + 1:]]
            loop[-1] = loop[-1].rsplit(' goto ', 1)[0]
            written = instead_of(loop)
            if written:
                result[start:] = [Line('    ' + text) for text in written]
                start = None
    return result


def without_unread(lines):
    """The lines without variables that nothing reads, and these variables. Of a call the call is left."""
    unread = set()
    while True:
        read = set()
        for line in lines:
            # A result of a block is set within a line, and so counted as read.
            read.update(re.findall(r'\bt\d+\b', line.text))
        dead = {line.sets for line in lines if line.sets} - read
        if not dead:
            return lines, unread
        unread |= dead
        lines = [Line('    (void)%s;' % line.text) if line.sets in dead else line for line in lines
                 if line.sets not in dead or line.is_call]


def name_of(module, i):
    if i < len(module.imports):
        return 'ipl_to_' + module.imports[i]
    if i in module.exports:
        return 'ipl_w_' + module.exports[i]
    path = re.sub(r'::<.*', '', module.names.get(i, ''))
    return 'ipl_w%d_%s' % (i, re.sub(r'\W+', '_', re.sub(r'<.*|\W+$', '', path).split('::')[-1]))


def header_of(module, i, names):
    parameters, results = module.functions[i]
    given = ['ipl_u8 *const m'] + ['%s %s' % (TYPE[bits], name) for bits, name in zip(parameters, names)]
    return 'static %s %s(%s)' % (TYPE[results[0]] if results else 'void', name_of(module, i), ', '.join(given))


def data_of(module):
    """The data as an array of constants."""
    yield 'static const union { ipl_u8 bytes[%d]; ipl_u64 aligned; } ipl_data = {{' % len(module.bytes)
    for k in range(0, len(module.bytes), 32):
        yield '    %s,' % ','.join(map(str, module.bytes[k:k + 32]))
    yield '}};'


def translation(module):
    """The lines of C."""
    if len(module.globals) != 1 or len(module.data) > 1:
        raise Refused('%d globals and %d pieces of data' % (len(module.globals), len(module.data)))
    module.data_at, module.bytes = module.data[0] if module.data else (LEAST_DATA, b'\0')
    module.data_size = len(module.bytes)
    if not LEAST_DATA <= module.data_at < 1 << 31 or module.data_at % 16:
        raise Refused('data at an address that may be of memory, or is not aligned')
    yield 'enum { IPL_STACK = %d };' % module.globals[0]
    yield from data_of(module)
    for i, signature in enumerate(module.functions):
        yield header_of(module, i, ['l%d' % k for k in range(len(signature.parameters))]) + ';'
    for i in range(len(module.imports), len(module.functions)):
        yield '\n/* %s */' % re.sub(r'\*/|/\*', '', module.names.get(i, ''))
        yield Function(module, i).text()


def main():
    with open(sys.argv[1], 'rb') as file:
        data = file.read()
    try:
        print('\n'.join(translation(Module(data))))
    except Refused as refused:
        sys.exit('wasm_to_c: %s' % refused)


if __name__ == '__main__':
    main()
