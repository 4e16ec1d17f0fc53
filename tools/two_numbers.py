"""What the tools that make files from text share: lines of two numbers on standard input, bytes on standard output."""
import sys


def number(word, bits, name):
    if not (word.isascii() and word.isdigit()):
        sys.exit(f'{name}: a whole number is wanted, not {word!r}')
    digits = word.lstrip('0') or '0'
    if len(digits) > 10 or int(digits) >= 2**bits:
        sys.exit(f'{name}: {digits} is above {2**bits - 1}')
    return int(digits)


def pairs(first, second):
    """The two numbers of each line, each a name and its bits; a line that is empty or begins with # is passed over."""
    if sys.stdin is None or sys.stdout is None:
        sys.exit('standard input and output must be open')
    try:
        lines = sys.stdin.buffer.read().decode('utf-8-sig').splitlines()
    except (OSError, UnicodeDecodeError) as fault:
        sys.exit(f'standard input: {fault}')
    for place, line in enumerate(lines, 1):
        words = line.split()
        if words and not words[0].startswith('#'):
            if len(words) != 2:
                sys.exit(f'line {place}: two numbers are wanted, a {first[0]} and a {second[0]}')
            yield tuple(number(word, bits, f'line {place}, {name}') for word, (name, bits) in zip(words, (first, second)))


def give(data):
    try:
        sys.stdout.buffer.write(data)
        sys.stdout.buffer.flush()
    except OSError as fault:
        sys.exit(f'standard output: {fault}')
