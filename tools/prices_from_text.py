#!/usr/bin/env python3
"""A price file (document 02's Req 05) from lines of `keep send`, class 0 first, on standard input and output.

usage: prices_from_text.py < prices.txt > company.prices

A line that is empty or begins with # is passed over. A number must fit its field; whether the price file is a right one is the reader's to say: the
sheet program prints one line of refusal for one that is not. Where a line is not as it should be, nothing is written, and the message names it.
"""
import struct
import sys

sys.dont_write_bytecode = True
from two_numbers import give, number, pairs


def main(words):
    if words:
        sys.exit(__doc__)
    classes = list(pairs(('keep price', 32), ('send price', 32)))
    number(str(len(classes)), 16, 'the number of classes')
    give(struct.pack('<HH', len(classes), 4) + b''.join(struct.pack('<II', keep, send) for keep, send in classes))


main(sys.argv[1:])
