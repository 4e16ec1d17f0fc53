#!/usr/bin/env python3
"""A log (document 01's 'The log') from lines of `second station`, on standard input and output.

usage: log_from_text.py [--prices] CLASS STATIONS HOME [ID] < requests.txt > week.log

ID is a text of at most 16 bytes that does not begin with --. A line that is empty or begins with # is passed over. A number must fit its field;
whether the log is a right one is the reader's to say: the sheet program prints one line of refusal for one that is not. Class 7 of the built-in
table is no longer sold, and refused here as by the library's writer (43); --prices, before or after the other words, says that the log goes with a
price file, whose class 7 is one like any other. Where a word or a line is not as it should be, nothing is written, and the message names it.
"""
import struct
import sys

sys.dont_write_bytecode = True
from two_numbers import give, number, pairs


def checked_sum(data):
    total = 0
    for place, byte in enumerate(data):
        if not 20 <= place < 24:
            total = (31 * total + byte) % 2**32
    return total


def log(file_class, stations, home, file_id, scans):
    body = b''.join(struct.pack('<IH', second, station) for second, station in scans)
    head = struct.pack('<HBBBBHIIII16s', 1, file_class, stations, home, 0, len(scans), 40, 24, 40 + len(body), 0, file_id)
    data = bytearray(head + body)
    struct.pack_into('<I', data, 20, checked_sum(data))
    return bytes(data)


def main(words):
    flags = [word for word in words if word.startswith('--')]
    words = [word for word in words if not word.startswith('--')]
    if flags not in ([], ['--prices']) or len(words) not in (3, 4):
        sys.exit(__doc__)
    setup = [number(word, 8, name) for word, name in zip(words, ('CLASS', 'STATIONS', 'HOME'))]
    if setup[0] == 7 and not flags:
        sys.exit('CLASS: 7 of the built-in table is no longer sold (43); --prices is for a log that goes with a price file')
    file_id = words[3].encode(errors='surrogateescape') if len(words) == 4 else b''
    if len(file_id) > 16:
        sys.exit('ID: more than 16 bytes')
    scans = list(pairs(('second', 32), ('station', 16)))
    number(str(len(scans)), 16, 'the number of scans')
    give(log(*setup, file_id, scans))


main(sys.argv[1:])
