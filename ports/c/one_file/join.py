#!/usr/bin/env python3
"""Joins the one file of C: join.py PORTS_C FUNCTIONS >ipl.c

PORTS_C is the folder ports/c: of it engine.h and ipl_calls.c are taken, and from its folder one_file the two files that stand around
the translated functions."""
import os
import re
import sys

OWN = ('ipl.h', 'engine.h')  # what the parts include of one another; they stand in front of them

START = '''\
/* ipl.c: a proved store of records over raw NAND, as one file of C for any processor. Its calls are told in ipl.h.
 *
 * It is made from its sources by ports/c/one_file/make, and isn't to be edited: the store itself is translated from what was proved.
 * It is C99, C11 and C++; it wants nothing of a C library but memcpy, memmove, memset and memcmp, and keeps nothing but constants
 * and the list of open stores outside the memory that it is handed. These may be defined where it is compiled:
 *
 * IPL_TRUST_ADDRESSES   no address is looked at. As it stands, one that would leave the store's memory puts the store down
 * IPL_SETJMP            setjmp and longjmp of the C library are used for that, also where the compiler has its own
 */
#include "ipl.h"
#include <string.h>

#define IPL_ENGINE static
'''
# The functions that were translated have what a person wouldn't write: variables that nothing reads, comparisons that always
# hold, labels that stand side by side. So these warnings are off, by name, for them alone.
QUIET = '''\
#if defined(__clang__)
#pragma clang diagnostic push
#pragma clang diagnostic ignored "-Wunused-but-set-variable"
#pragma clang diagnostic ignored "-Wtautological-compare"
#elif defined(__GNUC__)
#pragma GCC diagnostic push
#pragma GCC diagnostic ignored "-Wunused-but-set-variable"
#pragma GCC diagnostic ignored "-Wmaybe-uninitialized"
#pragma GCC diagnostic ignored "-Wtype-limits"
#endif
'''
LOUD = '''\
#if defined(__clang__)
#pragma clang diagnostic pop
#elif defined(__GNUC__)
#pragma GCC diagnostic pop
#endif
'''


def part(folder, name):
    """A file without the lines that include what stands in front of it here."""
    with open(os.path.join(folder, name), encoding='utf-8') as file:
        text = file.read()
    included = re.findall(r'^#include "(.*)"$', text, re.M)
    unknown = [it for it in included if it not in OWN]
    if unknown:
        sys.exit('join: %s includes %s' % (name, ', '.join(unknown)))
    return re.sub(r'^#include ".*"\n', '', text, flags=re.M).strip('\n') + '\n'


def main():
    port, functions = sys.argv[1:]
    here = os.path.join(port, 'one_file')
    with open(functions, encoding='utf-8') as file:
        translated = file.read()
    parts = [START, part(port, 'engine.h'), part(here, 'runtime.h'), QUIET, translated, LOUD, part(here, 'engine.c'),
             part(port, 'ipl_calls.c')]
    sys.stdout.write('\n'.join(parts))


main()
