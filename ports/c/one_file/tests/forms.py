#!/usr/bin/env python3
"""Tries the translation of each form against the interpreter of wabt, on small modules: forms.py [SEED]

Each module is run by wasm-interp, and as C that wasm_to_c.py makes of it, sanitized; what each export answers has to be the same. It
has every operation over numbers at the edges of their types; every load and store, at each alignment; code of a chance's choosing,
whose blocks, branches, locals, memory and calls change one another's operands; addresses past the end; loops over bytes that lie over one
another; and forms that have to be refused. It wants wabt (wat2wasm, wasm-interp) and a compiler of C, $CC."""
import os
import random
import re
import subprocess
import sys
import tempfile

HERE = os.path.dirname(os.path.abspath(__file__))
PAGE = 65536
DATA = bytes((i * 37 + 11) % 256 for i in range(4096))
# In C the data stands where no memory is, in the interpreter at the end of a second page, since it has no more memory than it says.
PLACES_OF_DATA = {'c': 1610612736, 'interpreter': PAGE}

EDGES = {32: [0, 1, 2, 5, 31, 32, 33, 255, 65536, 2**31 - 1, 2**31, 2**32 - 2, 2**32 - 1],
         64: [0, 1, 2, 31, 63, 64, 65, 2**31, 2**32 - 1, 2**32, 2**63 - 1, 2**63, 2**64 - 2, 2**64 - 1]}
UNARY = {32: 'eqz clz ctz popcnt extend8_s extend16_s wrap_i64', 64: 'eqz clz ctz popcnt extend8_s extend16_s extend32_s'
         ' extend_i32_s extend_i32_u'}
WRAPPING = 'add sub mul and or xor shl shr_s shr_u rotl rotr'.split()
COMPARING = 'eq ne lt_s lt_u gt_s gt_u le_s le_u ge_s ge_u'.split()
DIVIDING = 'div_s div_u rem_s rem_u'.split()
LOADS = {32: '32 8_s 8_u 16_s 16_u', 64: '64 8_s 8_u 16_s 16_u 32_s 32_u'}
STORES = {32: '32 8 16', 64: '64 8 16 32'}


def run(words, **how):
    return subprocess.run(words, stdout=subprocess.PIPE, stderr=subprocess.STDOUT, text=True, check=False, timeout=300, **how)


def access(kind, bits, name):
    """The name of a load or a store, and how many bytes it has."""
    width = int(name.split('_')[0])
    return 'i%d.%s%s' % (bits, kind, '' if width == bits else name), width // 8


# ---- modules

class Text:
    """The text of a module on its way: functions without parameters, each exported by a name of its own."""

    def __init__(self):
        self.functions, self.names = [], []

    def export(self, name, body, result=64, locals_=''):
        name = '%s_%d' % (re.sub(r'\W', '_', name), len(self.names))
        self.names.append(name)
        self.functions.append('(func (export "%s") (result i%d) %s\n%s)' % (name, result, locals_, body))

    def whole(self, place_of_data):
        pages = 1 if place_of_data > PAGE else 2
        data = ''.join('\\%02x' % b for b in DATA)
        text = ['(module', '(memory i64 %d)' % pages, '(global $g (mut i64) (i64.const 40960))',
                '(data (i64.const %d) "%s")' % (place_of_data, data), HELPERS]
        return '\n'.join(text + self.functions + [')']).replace('DATA', str(place_of_data))


# What hides a number from the translation; what mixes a result into a sum; and a call that writes memory.
HELPERS = '''
(func $a32 (param i32) (result i32) local.get 0)
(func $a64 (param i64) (result i64) local.get 0)
(func $mix (param i64 i64) (result i64)
  (i64.xor (i64.rotl (local.get 0) (i64.const 7)) (i64.mul (local.get 1) (i64.const 1099511628211))))
(func $writes (param i64 i64) (result i64)
  (i64.store (i64.and (local.get 0) (i64.const 120)) (local.get 1))
  (global.set $g (i64.add (global.get $g) (i64.const 3)))
  (i64.add (local.get 0) (global.get $g)))
(func $quiet (param i64)
  (i32.store8 (i64.and (local.get 0) (i64.const 127)) (i32.wrap_i64 (local.get 0))))
(func $sum (result i64) (local $i i64) (local $h i64)
  (loop $l
    (local.set $h (call $mix (local.get $h) (i64.load (local.get $i))))
    (br_if $l (i64.lt_u (local.tee $i (i64.add (local.get $i) (i64.const 8))) (i64.const 2048))))
  (local.get $h))
'''


def operand(n, bits, hidden):
    constant = '(i%d.const %d)' % (bits, n)
    return '(call $a%d %s)' % (bits, constant) if hidden else constant


def mixed(terms):
    """A body that mixes numbers of 64 bits into one."""
    return '\n'.join('(local.set $h (call $mix (local.get $h) %s))' % term for term in terms) + '\n(local.get $h)'


def widened(term, bits):
    return '(i64.extend_i32_u %s)' % term if bits == 32 else term


def operations(text):
    """Each operation over all edges of its type, its operands hidden or seen by the translation."""
    for bits in (32, 64):
        for name in UNARY[bits].split():
            of = 64 if name == 'wrap_i64' else 32 if '_i32' in name else bits
            to = 32 if name == 'eqz' else bits
            terms = [widened('(i%d.%s %s)' % (bits, name, operand(n, of, hidden)), to) for n in EDGES[of] for hidden in (0, 1)]
            text.export('i%d.%s' % (bits, name), mixed(terms), locals_='(local $h i64)')
        for name in WRAPPING + COMPARING + DIVIDING:
            to = 32 if name in COMPARING else bits
            for hidden in ((1, 1), (1, 0), (0, 1), (0, 0)):
                terms = []
                for x in EDGES[bits]:
                    for y in EDGES[bits]:
                        term = '(i%d.%s %s %s)' % (bits, name, operand(x, bits, hidden[0]), operand(y, bits, hidden[1]))
                        overflows = name == 'div_s' and x == 2**(bits - 1) and y == 2**bits - 1
                        if name in DIVIDING and (y == 0 or overflows):
                            text.export('i%d.%s traps' % (bits, name), widened(term, to))
                        else:
                            terms.append(widened(term, to))
                text.export('i%d.%s %d%d' % ((bits, name) + hidden), mixed(terms), locals_='(local $h i64)')
        # A truth as an operand of all that takes one.
        truth = '(i32.lt_u (call $a32 (i32.const 3)) (call $a32 (i32.const 5)))'
        text.export('truths %d' % bits, mixed(['(i64.extend_i32_u (i32.eqz %s))' % truth, '(i64.extend_i32_s %s)' % truth,
                    '(i64.extend_i32_u (i32.sub %s (i32.const 2)))' % truth, '(select (i64.const 1) (i64.const 2) %s)' % truth,
                    '(i64.extend_i32_u (i32.shl %s %s))' % (truth, truth), '(i64.extend_i32_u (i32.lt_s %s (i32.const -1)))' % truth]),
                    locals_='(local $h i64)')


def accesses(text):
    """Each load and store, aligned and not, with offsets on both sides of what is looked at once for all, and with an address that
    is a variable plus a number."""
    fill = '\n'.join('(i64.store (i64.const %d) (i64.const %d))' % (at, (at * 0x9E3779B97F4A7C15 + 0x0123456789ABCDEF) % 2**64)
                     for at in range(0, 2048, 8)).replace('(i64.const ', '(call $a64 (i64.const ').replace('))', ')))')
    text.export('fill', re.sub(r'\(i64\.store \(call \$a64 \(i64\.const (\d+)\)+ \(call \$a64 \(i64\.const (\d+)\)+',
                               r'(i64.store (call $a64 (i64.const \1)) (call $a64 (i64.const \2)))', fill) + '\n(call $sum)')
    for bits in (32, 64):
        for name in LOADS[bits].split():
            load, size = access('load', bits, name)
            terms = []
            for align in {1, size}:
                for at, offset in ((64, 0), (64, 8 * size), (128, 64), (8, 4088), (16, 4096), (8, 6000)):
                    at += 0 if align == size else 3
                    terms.append('(%s offset=%d align=%d (call $a64 (i64.const %d)))' % (load, offset, align, at))
                terms.append('(%s align=%d (i64.add (local.tee $a (call $a64 (i64.const 64))) (i64.const 8)))' % (load, align))
                terms.append('(%s align=%d (i64.add (local.get $a) (i64.const 600)))' % (load, align))
                terms.append('(%s offset=4080 align=%d (i64.add (local.get $a) (i64.const 256)))' % (load, align))
                # Of the data: an index whose bounds are known, with the address as a number, or as the offset.
                terms.append('(%s align=%d (i64.add (i64.and (call $a64 (i64.const 999)) (i64.const 1016)) (i64.const DATA)))'
                             % (load, align))
                terms.append('(%s offset=16 align=%d (i64.add (i64.shl (i64.load8_u (call $a64 (i64.const 9))) (i64.const 3))'
                             ' (i64.const DATA)))' % (load, align))
                terms.append('(%s offset=DATA align=%d (i64.extend_i32_u (i32.and (call $a32 (i32.const 77)) (i32.const 248))))'
                             % (load, align))
            text.export(load, mixed([widened(t, bits) for t in terms]), locals_='(local $h i64) (local $a i64)')
        for name in STORES[bits].split():
            store, size = access('store', bits, name)
            for align in {1, size}:
                lines = []
                for k, (at, offset) in enumerate(((64, 0), (64, 8 * size), (128, 64), (8, 1000), (512, 0))):
                    at += 0 if align == size else 3
                    lines.append('(%s offset=%d align=%d (call $a64 (i64.const %d)) %s)'
                                 % (store, offset, align, at, operand(EDGES[bits][-1 - k] - 77, bits, k % 2)))
                text.export('%s align %d' % (store, align), '\n'.join(lines) + '\n(call $sum)')


def spans(text):
    """Copies that lie over one another, and fills; of no bytes too."""
    for to, at, n in ((100, 90, 50), (90, 100, 50), (700, 0, 300), (5, 5, 9), (1000, 8, 0)):
        a, b, c = (operand(x, 64, True) for x in (to, at, n))
        text.export('copy %d %d %d' % (to, at, n), '(memory.copy %s %s %s) (call $sum)' % (a, b, c))
        text.export('fill %d %d' % (to, n), '(memory.fill %s (i32.const %d) %s) (call $sum)' % (a, 0x1A5 + at, c))


# Loops over bytes, as a compiler leaves them: locals 0, 1 are addresses, 2 counts, 3 is a distance, 4 has 32 bits. What stands first sets
# them, from two addresses and a number of bytes.
MORE = '(local.set %d (i64.add (local.get %d) (i64.const 1)))'
LOOPS = {
    'rise': ('(local.set 0 TO) (local.set 1 FROM) (local.set 2 N)', '(i32.store8 (local.get 0) (i32.load8_u (local.get 1)))'
             + MORE % (0, 0) + MORE % (1, 1) + '(br_if $l (i64.ne (local.tee 2 (i64.add (local.get 2) (i64.const -1))) (i64.const 0)))'),
    'rise apart': ('(local.set 0 TO) (local.set 3 (i64.sub FROM TO)) (local.set 2 N)',
                   '(i32.store8 (local.get 0) (i32.load8_u (i64.add (local.get 0) (local.get 3))))' + MORE % (0, 0)
                   + '(br_if $l (i32.eqz (i64.eqz (local.tee 2 (i64.add (local.get 2) (i64.const -1))))))'),
    'rise to a number': ('(local.set 2 (i64.sub (i64.const 300) N)) (local.set 0 (i64.sub TO (local.get 2))) (local.set 1 (i64.sub FROM'
                         ' (local.get 2)))', '(i32.store8 (i64.add (local.get 0) (local.get 2)) (i32.load8_u (i64.add (local.get 1)'
                         ' (local.get 2))))' + MORE % (2, 2) + '(br_if $l (i64.ne (local.get 2) (i64.const 300)))'),
    'fall': ('(local.set 0 TO) (local.set 1 FROM) (local.set 2 (i64.sub N (i64.const 1)))',
             '(i32.store8 (i64.add (local.get 0) (local.get 2)) (i32.load8_u (i64.add (local.get 1) (local.get 2))))'
             '(br_if $l (i64.ne (local.tee 2 (i64.add (local.get 2) (i64.const -1))) (i64.const -1)))'),
    'fall to a sum': ('(local.set 3 (i64.const 77)) (local.set 2 (i64.sub N (local.get 3))) (local.set 0 (i64.add TO (local.get 3)))'
                      ' (local.set 1 (i64.add FROM (local.get 3)))', '(local.set 2 (i64.add (local.get 2) (i64.const -1)))'
                      '(i32.store8 (i64.add (local.get 2) (local.get 0)) (i32.load8_u (i64.add (local.get 2) (local.get 1))))'
                      '(br_if $l (i64.ne (i64.add (local.get 3) (local.get 2)) (i64.const 0)))'),
    'differ': ('(local.set 2 (i64.sub (i64.const 300) N)) (local.set 0 (i64.sub TO (local.get 2))) (local.set 1 (i64.sub FROM (local.get 2)))',
               '(local.set 4 (i32.or (local.get 4) (i32.ne (i32.load8_u (i64.add (local.get 0) (local.get 2))) (i32.load8_u (i64.add'
               ' (local.get 1) (local.get 2))))))' + MORE % (2, 2) + '(br_if $l (i64.ne (local.get 2) (i64.const 300)))'),
    'bits': ('(local.set 2 (i64.sub (i64.const 300) N)) (local.set 0 (i64.sub FROM (local.get 2)))',
             '(local.set 4 (i32.or (i32.load8_u (i64.add (local.get 0) (local.get 2))) (local.get 4)))' + MORE % (2, 2)
             + '(br_if $l (i64.ne (local.get 2) (i64.const 300)))'),
}
# What looks like one of these, and isn't: an address that is its own other one.
LIKE_LOOPS = {
    'one address': ('(local.set 0 TO) (local.set 2 N)', '(i32.store8 (local.get 0) (i32.load8_u (local.get 0)))' + MORE % (0, 0) * 2
                    + '(br_if $l (i64.ne (local.tee 2 (i64.add (local.get 2) (i64.const -1))) (i64.const 0)))'),
    'a number counts both': ('(local.set 0 TO) (local.set 2 N)', '(i32.store8 (i64.add (local.get 0) (local.get 2)) (i32.load8_u (i64.add'
                             ' (local.get 2) (local.get 2))))' + MORE % (2, 2) + '(br_if $l (i64.ne (local.get 2) (i64.const 300)))'),
}


def loop(text, name, parts, to, at, n):
    first, body = parts
    for word, number in (('TO', to), ('FROM', at), ('N', n)):
        first = re.sub(r'\b%s\b' % word, operand(number, 64, True), first)
    text.export('%s %d %d %d' % (name, to, at, n), first + '(loop $l %s)' % body + mixed(
        ['(local.get %d)' % i for i in range(4)] + ['(i64.extend_i32_u (local.get 4))', '(call $sum)']).replace('$h', '5'),
        locals_='(local i64 i64 i64 i64 i32 i64)')


def loops(text):
    """Each loop over bytes, of bytes that lie over one another at each small distance, behind and in front."""
    for name, parts in LOOPS.items():
        for n in (1, 2, 7, 8, 9, 31, 300):
            for apart in (-300, -9, -8, -7, -1, 0, 1, 2, 7, 8, 9, 30, 31, 299, 300):
                loop(text, name, parts, 700, 700 + apart, n)
    return len(text.names)


def like_loops(text):
    for name, parts in LIKE_LOOPS.items():
        loop(text, name, parts, 700, 600, 9)
    return 0


def outside(text):
    """Addresses at and past the end of the memory. In C the last 4,096 bytes are out of reach too, but for an offset."""
    for at in (PAGE - 4352, PAGE - 4096, PAGE - 8, PAGE - 7, PAGE, PAGE + 1, 2**31, 2**32 - 4, 2**63, 2**64 - 8, 2**64 - 1):
        for offset in (0, 8, 4096, 5000, 65536):
            a = operand(at, 64, True)
            text.export('outside load %d %d' % (at, offset), '(i64.load offset=%d align=1 %s)' % (offset, a))
            text.export('outside store %d %d' % (at, offset), '(i32.store8 offset=%d %s (i32.const 1)) (i64.const 0)' % (offset, a))
        for offset in (0, 3900, 4090):
            text.export('outside sum %d %d' % (at, offset), '(i64.load offset=%d align=1 (i64.add (local.tee $a %s) (i64.const 256)))'
                        % (offset, operand(at, 64, True)), locals_='(local $a i64)')
        for n in (1, 8, 2**63, 2**64 - 1):
            text.export('outside fill %d %d' % (at, n), '(memory.fill %s (i32.const 0) %s) (i64.const 0)'
                        % (operand(at, 64, True), operand(n, 64, True)))
            text.export('outside copy %d %d' % (at, n), '(memory.copy (i64.const 8) %s %s) (i64.const 0)'
                        % (operand(at, 64, True), operand(n, 64, True)))
    for name, parts in LOOPS.items():
        for to, at, n in ((64, 64, 0), (PAGE - 5, 64, 9), (64, PAGE - 5, 9), (PAGE + 9, 64, 9), (64, 2**64 - 3, 9), (2**63, 64, 300)):
            loop(text, 'outside ' + name, parts, to, at, n)
    text.export('unreachable', '(unreachable)')


# What may stand on the stack, and what may come between it and what takes it.
PENDING = ['(i64.load (call $a64 (i64.const 64)))', '(i64.load32_s offset=56 (i64.add (local.get 0) (i64.const 8)))',
           '(i64.add (local.get 0) (i64.const 1))', '(i64.extend_i32_u (i64.lt_u (local.get 0) (i64.const 100)))', '(global.get $g)',
           '(i64.div_u (i64.const 10000) (local.get 0))', '(local.get 0)', '(local.tee 0 (i64.const 72))']
BETWEEN = ['(i64.store (call $a64 (i64.const 64)) (i64.const 999))', '(i32.store8 offset=4 (local.get 0) (i32.const 9))',
           '(drop (call $writes (i64.const 64) (i64.const 777)))', '(call $quiet (i64.const 64))',
           '(memory.fill (local.get 0) (i32.const 7) (i64.const 80))',
           '(memory.copy (local.get 0) (i64.const 200) (i64.const 64))',
           '(local.set 0 (i64.const 200))', '(drop (local.tee 0 (i64.const 200)))', '(global.set $g (i64.const 5))',
           '(block (br_if 0 (call $a32 (i32.const 0))) (i64.store (call $a64 (i64.const 64)) (i64.const 1)) (local.set 0 (i64.const 4)))',
           '(loop $l (i64.store (local.get 0) (i64.const 3)) (local.set 0 (i64.add (local.get 0) (i64.const 8)))'
           ' (br_if $l (i64.lt_u (local.get 0) (i64.const 128))))',
           '(drop (block (result i64) (local.get 0) (br_if 0 (call $a32 (i32.const 1))) (drop) (local.set 0 (i64.const 9)) (i64.const 2)))']


def orders(text):
    """Each of what may stand on the stack, and each of what may come behind it, and change what it reads."""
    for pending in PENDING:
        for between in BETWEEN:
            text.export('order', '(local.set 0 (i64.const 64)) (global.set $g (i64.const 1234))\n(i64.store (call $a64 (i64.const 64))'
                        ' (i64.const 0x1122334455667788)) (i64.store (call $a64 (i64.const 120)) (i64.const 0x99AABBCCDDEEFF))\n'
                        + pending + between + '(local.get 0) call $mix (global.get $g) call $mix (call $sum) call $mix', locals_='(local i64)')


class Chance:
    """A function of a chance's choosing: instructions in the order of the stack, so that what stands there meets what changes it."""

    LOCALS = [32, 32, 32, 64, 64, 64]

    def __init__(self, rng):
        self.rng, self.lines, self.stack, self.labels, self.loops = rng, [], [], [], 0

    def out(self, line):
        self.lines.append(line)

    def floor(self):
        return self.labels[-1][1] if self.labels else 0

    def want(self, bits):
        """A number of so many bits on the top of the stack."""
        if len(self.stack) > self.floor() and self.rng.random() < 0.6:
            if self.stack[-1] != bits:
                self.out('i64.extend_i32_%s' % self.rng.choice('su') if bits == 64 else 'i32.wrap_i64')
                self.stack[-1] = bits
            return
        k = self.rng.choice([i for i, b in enumerate(self.LOCALS) if b == bits])
        if self.rng.random() < 0.4:
            self.out('i%d.const %d' % (bits, self.rng.choice(EDGES[bits])))
        else:
            self.out('local.get %d' % k)
        self.stack.append(bits)

    def wants(self, *types):
        """Several, of which the first may stand there already."""
        for i, bits in enumerate(types):
            if i == 0:
                self.want(bits)
            else:
                k = self.rng.choice([i for i, b in enumerate(self.LOCALS) if b == bits])
                self.out(self.rng.choice(['local.get %d' % k, 'i%d.const %d' % (bits, self.rng.choice(EDGES[bits]))]))
                self.stack.append(bits)

    def gives(self, line, count, *types):
        del self.stack[len(self.stack) - count:]
        self.out(line)
        self.stack.extend(types)

    def address(self):
        self.want(64)
        self.out('i64.const 120 i64.and')

    def number(self):
        bits = self.rng.choice((32, 64))
        if self.rng.random() < 0.3:
            name = self.rng.choice(UNARY[bits].split())
            of = 64 if name == 'wrap_i64' else 32 if '_i32' in name else bits
            self.wants(of)
            self.gives('i%d.%s' % (bits, name), 1, 32 if name == 'eqz' else bits)
        else:
            name = self.rng.choice(WRAPPING + COMPARING)
            self.wants(bits, bits)
            self.gives('i%d.%s' % (bits, name), 2, 32 if name in COMPARING else bits)

    def local(self):
        bits = self.rng.choice((32, 64))
        self.want(bits)
        k = self.rng.choice([i for i, b in enumerate(self.LOCALS) if b == bits])
        if self.rng.random() < 0.5:
            self.gives('local.set %d' % k, 1)
        else:
            self.gives('local.tee %d' % k, 1, bits)

    def memory(self):
        bits = self.rng.choice((32, 64))
        if self.rng.random() < 0.6:
            load, _ = access('load', bits, self.rng.choice(LOADS[bits].split()))
            self.address()
            self.gives('%s offset=%d' % (load, 8 * self.rng.randrange(8)), 1, bits)
        else:
            store, _ = access('store', bits, self.rng.choice(STORES[bits].split()))
            self.address()
            self.wants_more(bits)
            self.gives('%s offset=%d align=1' % (store, self.rng.randrange(16)), 2)

    def wants_more(self, bits):
        self.out('local.get %d' % self.rng.choice([i for i, b in enumerate(self.LOCALS) if b == bits]))
        self.stack.append(bits)

    def other(self):
        which = self.rng.randrange(8)
        if which == 0:
            self.wants(64, 64)
            self.gives('call $writes', 2, 64)
            if self.rng.random() < 0.2:
                self.gives('drop', 1)
        elif which == 1:
            self.want(64)
            self.gives('call $quiet', 1)
        elif which == 2:
            self.gives('global.get $g', 0, 64)
        elif which == 3:
            self.want(64)
            self.gives('global.set $g', 1)
        elif which == 4:
            bits = self.rng.choice((32, 64))
            self.wants(bits, bits, 32)
            self.gives('select', 3, bits)
        elif which == 5:
            self.address()
            self.out('local.get 0 local.get 4 i64.const 63 i64.and memory.fill')
            self.stack.pop()
        elif which == 6:
            self.address()
            self.out('local.get 3 i64.const 120 i64.and local.get 5 i64.const 63 i64.and memory.copy')
            self.stack.pop()
        elif len(self.stack) > self.floor():
            self.gives('drop', 1)

    def branch(self):
        """To a block around, with its result where it has one; a loop's start isn't gone to, but by its own count."""
        depths = [d for d, label in enumerate(reversed(self.labels)) if not label[2]]
        if not depths:
            return
        depth = self.rng.choice(depths)
        result = self.labels[-1 - depth][0]
        same = [d for d in depths if self.labels[-1 - d][0] == result]
        if result:
            self.want(result)
        self.wants_more(32)
        which = self.rng.random()
        if which < 0.6:
            self.gives('br_if %d' % depth, 1)
            return
        if which < 0.8:
            self.gives('i32.const 3 i32.and br_table %s' % ' '.join(str(self.rng.choice(same)) for _ in range(4)), 1)
        elif which < 0.9:
            self.gives('drop br %d' % depth, 1)
        else:
            self.gives('drop', 1)
            self.out('local.get 3 return')
        # What isn't reached: it is read, and skipped.
        self.out(self.rng.choice(['', 'unreachable', 'i64.const 1 drop', 'block i32.const 1 br_if 0 end',
                                  'loop i64.const 5 local.set 3 end', 'i64.const 0 i32.load drop']))
        return True

    def block(self, depth):
        result = self.rng.choice((None, 32, 64))
        is_loop = self.rng.random() < 0.4
        kind = ('loop' if is_loop else 'block') + (' (result i%d)' % result if result else '')
        if is_loop:
            counter = 6 + self.loops
            self.loops += 1
            self.out('i32.const 0 local.set %d' % counter)
        self.out(kind)
        self.labels.append((result, len(self.stack), is_loop))
        floor = len(self.stack)
        reached = True
        for _ in range(self.rng.randrange(2, 9)):
            if self.step(depth + 1):
                reached = False
                break
        if reached:
            if is_loop:
                while len(self.stack) > floor:
                    self.gives('drop', 1)
                self.out('local.get {0} i32.const 1 i32.add local.tee {0} i32.const 4 i32.lt_u br_if 0'.format(counter))
            if result:
                self.want(result)
            while len(self.stack) > floor + (1 if result else 0):
                if result:
                    k = self.LOCALS.index(result) + self.rng.randrange(3)
                    self.gives('local.set %d drop local.get %d' % (k, k), 2, result)
                else:
                    self.gives('drop', 1)
        del self.stack[floor:]
        if result:
            self.stack.append(result)
        self.labels.pop()
        self.out('end')

    def step(self, depth):
        which = self.rng.random()
        if which < 0.14 and depth < 4 and self.loops < 10:
            return self.block(depth)
        if which < 0.26:
            return self.branch()
        self.rng.choice([self.number, self.number, self.local, self.local, self.memory, self.memory, self.other])()

    def text(self):
        for i, bits in enumerate(self.LOCALS):
            self.out('i%d.const %d local.set %d' % (bits, self.rng.choice(EDGES[bits]), i))
        for _ in range(self.rng.randrange(15, 40)):
            self.step(0)
        while self.stack:
            self.gives('drop', 1)
        self.out('call $sum')
        for i, bits in enumerate(self.LOCALS):
            self.out('local.get %d %s call $mix' % (i, 'i64.extend_i32_u' if bits == 32 else ''))
        self.out('global.get $g call $mix')
        return '\n'.join(self.lines)


def chances(text, rng, count):
    for k in range(count):
        c = Chance(rng)
        body = c.text()
        text.export('chance %d' % k, body, locals_='(local i32 i32 i32 i64 i64 i64 %s)' % ('i32 ' * 10))


# ---- to run them

RUNNER = '''
#include <stddef.h>
#include <stdint.h>
#include <stdio.h>
#include <string.h>
struct ipl_driver;
#include "runtime.h"
#include "functions.c"
static struct { uint64_t aligned[(IPL_HEAD + %(memory)d) / 8]; } arena;
static ipl_u8 *const m = (ipl_u8 *)arena.aligned + IPL_HEAD;
static IPL_OUT_OF_LINE void enter(ipl_u64 (*f)(ipl_u8 *const), const char *name) {
    ipl_place here;
    IPL_E(m)->trap = &here;
    if (IPL_LAND(here)) { printf("%%s() => error\\n", name); return; }
    printf("%%s() => i64:%%llu\\n", name, (unsigned long long)f(m));
}
int main(void) {
    IPL_E(m)->end = %(memory)d - IPL_SLACK;
    IPL_G(0) = IPL_STACK;
%(calls)s
    return 0;
}
'''


def answers_of_interpreter(room, text):
    wat, wasm = os.path.join(room, 'i.wat'), os.path.join(room, 'i.wasm')
    with open(wat, 'w', encoding='ascii') as file:
        file.write(text.whole(PLACES_OF_DATA['interpreter']))
    made = run(['wat2wasm', '--enable-memory64', wat, '-o', wasm])
    if made.returncode:
        sys.exit('forms: wat2wasm: ' + made.stdout[:2000])
    said = run(['wasm-interp', '--enable-memory64', '--run-all-exports', wasm]).stdout
    return [re.sub(r'error:.*', 'error', line) for line in said.splitlines()]


def answers_of_c(room, text):
    wat, wasm = os.path.join(room, 'c.wat'), os.path.join(room, 'c.wasm')
    with open(wat, 'w', encoding='ascii') as file:
        file.write(text.whole(PLACES_OF_DATA['c']))
    made = run(['wat2wasm', '--enable-memory64', '--no-check', wat, '-o', wasm])
    if made.returncode:
        sys.exit('forms: wat2wasm: ' + made.stdout[:2000])
    with open(os.path.join(room, 'functions.c'), 'w', encoding='utf-8') as file:
        made = subprocess.run([sys.executable, os.path.join(HERE, '..', 'wasm_to_c.py'), wasm], stdout=file, stderr=subprocess.PIPE,
                              text=True, check=False, timeout=100)
    if made.returncode:
        sys.exit('forms: ' + made.stderr)
    calls = '\n'.join('    enter(ipl_w_%s, "%s");' % (name, name) for name in text.names)
    with open(os.path.join(room, 'runner.c'), 'w', encoding='ascii') as file:
        file.write(RUNNER % {'calls': calls, 'memory': PAGE})
    program = os.path.join(room, 'runner')
    made = run(os.environ.get('CC', 'cc').split() + ['-std=c11', '-O1', '-w', '-fsanitize=undefined', '-fno-sanitize-recover=all',
               '-I', os.path.join(HERE, '..'), '-I', room, os.path.join(room, 'runner.c'), '-o', program])
    if made.returncode:
        sys.exit('forms: the C is refused: ' + made.stdout[:2000])
    return run([program]).stdout.splitlines()


def compare(name, fill, may_refuse=False):
    """Runs one module by both. May refuse: where the interpreter answers, C may have a trap, as in the last bytes of the memory. What
    fills it may say how many loops over bytes are to become one operation."""
    text = Text()
    count = fill(text)
    with tempfile.TemporaryDirectory() as room:
        expected, found = answers_of_interpreter(room, text), answers_of_c(room, text)
        with open(os.path.join(room, 'functions.c'), encoding='utf-8') as file:
            spans_made = len(re.findall(r'IPL_(?:RISE|FALL|DIFFER|BITS)\(', file.read()))
    if count not in (None, spans_made):
        sys.exit('forms: %s: %d loops became an operation, not %d' % (name, spans_made, count))
    wrong = len(expected) != len(text.names) or len(found) != len(text.names)
    for a, b in zip(expected, found):
        if a != b and not (may_refuse and b.endswith('error')):
            print('forms: %s: the interpreter says %s, C %s' % (name, a, b))
            wrong = True
    if wrong:
        sys.exit('forms: %s: %d functions, %d answers of the interpreter, %d of C' % (name, len(text.names), len(expected), len(found)))
    traps = sum(line.endswith('error') for line in expected)
    return '%d of %s (%d traps)' % (len(expected), name, traps)


REFUSED = {
    'an if': ('(func (export "f") (param i32) (if (local.get 0) (then nop)))', 'an instruction 04'),
    'a call by a table': ('(table 1 funcref) (type $t (func)) (func (export "f") (call_indirect (type $t) (i32.const 0)))', 'instruction 11'),
    'a memory that grows': ('(func (export "f") (drop (memory.grow (i64.const 1))))', 'an instruction 40'),
    'a float': ('(func (export "f") (param f64))', 'floats'),
    'a local of a float': ('(func (export "f") (local f32))', 'a local'),
    'two results': ('(func (export "f") (result i32 i32) (i32.const 1) (i32.const 2))', 'two results'),
    'a start': ('(func $f) (start $f)', 'a section of kind 8'),
    'a global that is imported': ('(import "a" "b" (global i64))', 'an import'),
    'data that is stored': ('(func (export "f") (i64.store (i64.const 8) (i64.const 1610612736)))', 'address'),
    'an address of data that is compared': ('(func (export "f") (result i32) (i64.eq (i64.const 1610612740) (i64.const 1)))', 'address'),
    'an address of data in a local': ('(func (export "f") (local i64) (local.set 0 (i64.const 1610612740)))', 'address'),
    'an address of data that is handed on': ('(func $g (param i64)) (func (export "f") (call $g (i64.const 1610612740)))', 'address'),
    'an address of data that is copied from': ('(func (export "f") (memory.copy (i64.const 1) (i64.const 1610612740) (i64.const 1)))', 'address'),
    'a store into the data': ('(func (export "f") (i32.store8 (i64.const 1610612736) (i32.const 1)))', 'a store into the data'),
    'a read past the data': ('(func (export "f") (result i64) (i64.load (i64.const 1610612740)))', 'bounds'),
    'a read of data without bounds': ('(func (export "f") (param i64) (result i64) (i64.load (i64.add (i64.const 1610612736)'
                                      ' (local.get 0))))', 'bounds'),
    'a read by a bound that wraps': ('(func (export "f") (param i64) (result i32) (i32.load8_u offset=1610612736 (i64.add (i64.const -4)'
                                     ' (i64.and (local.get 0) (i64.const 3)))))', 'bounds'),
    'a read by a sum whose bounds wrap': ('(func (export "f") (param i64) (result i32) (i32.load8_u (i64.add (i64.add (i64.const'
                                          ' 1610612736) (i64.const -2)) (i64.and (local.get 0) (i64.const 3)))))', 'bounds'),
    'a read by a product': ('(func (export "f") (param i64) (result i32) (i32.load8_u offset=1610612736 (i64.mul (i64.and (local.get 0)'
                            ' (i64.const 1)) (i64.const 4))))', 'bounds'),
    'a read by a shift that wraps': ('(func (export "f") (param i64) (result i32) (i32.load8_u offset=1610612736 (i64.extend_i32_u'
                                     ' (i32.shl (i32.wrap_i64 (local.get 0)) (i32.const 31)))))', 'bounds'),
    'a fixed address of the memory': ('(func (export "f") (result i64) (i64.load (i64.const 64)))', 'bounds'),
    'a large offset': ('(func (export "f") (param i64) (result i64) (i64.load offset=2000000 (local.get 0)))', 'bounds'),
}


def refusals():
    for name, (text, words) in REFUSED.items():
        with tempfile.TemporaryDirectory() as room:
            wat, wasm = os.path.join(room, 'r.wat'), os.path.join(room, 'r.wasm')
            with open(wat, 'w', encoding='ascii') as file:
                file.write('(module %s (memory i64 1) (global (mut i64) (i64.const 9)) (data (i64.const 1610612736) "\\01\\02\\03\\04\\05"))'
                           % text)
            made = run(['wat2wasm', '--enable-memory64', '--no-check', wat, '-o', wasm])
            if made.returncode:
                sys.exit('forms: wat2wasm: ' + made.stdout)
            said = run([sys.executable, os.path.join(HERE, '..', 'wasm_to_c.py'), wasm])
            if said.returncode == 0 or words not in said.stdout:
                sys.exit('forms: %s: %s' % (name, said.stdout[-300:]))
    return '%d refused' % len(REFUSED)


def main():
    seed = int(sys.argv[1]) if len(sys.argv) > 1 else 1
    rng = random.Random(seed)
    parts = [compare('operations', operations), compare('accesses', accesses), compare('copies and fills', spans),
             compare('loops over bytes', loops), compare('what looks like one', like_loops),
             compare('addresses outside', outside, may_refuse=True),
             compare('orders', orders),
             compare('functions by chance', lambda text: chances(text, rng, 300)), refusals()]
    print('forms: as the interpreter has them: ' + '; '.join(parts))


main()
