#!/usr/bin/env python3
"""Makes logs for sheetlog from text, and text from logs.

    python3 reference/makelog.py examples/set_b.txt > x.log
    python3 reference/makelog.py --back x.log

Without a file, standard input is read.  The text form has one command a
line; a # and what follows it on the line is a comment.

    variables 2            byte 0 of the log: n
    kind terms             byte 1: terms, derivatives, or a number
    insert x1^3
    insert x1 x2
    insert d2 x1^2         a derivative: d and its family in front
    withdraw 1             the term 1: every exponent 0
    arrange 2 1            padded with zeros to eight bytes
    verdict janet          janet, janet-like, thomas, or a number for any byte
    weigh janet 2 1        a division, then order bytes as for arrange
    settle janet-like
    locate x1^2 x2^2
    reopen
    bytes FF 01 02         raw bytes, in hexadecimal

Without a d in front the family is 0.  Numbers of one byte go up to 255,
exponents up to 65535, variables up to 8: so elements and lists that the sheet
refuses can be written too.  Where a log has a wrong first two bytes, an
unknown code or a command cut short, `bytes` writes them, and --back gives
such lines; the text that --back gives makes the same log again.
"""

import argparse
import re
import sys

KINDS = {"terms": 0, "derivatives": 1}
DIVISIONS = {"janet": 1, "janet-like": 2, "thomas": 3}
CODES = {"insert": 1, "withdraw": 2, "arrange": 3, "verdict": 4,
         "weigh": 5, "settle": 6, "locate": 7, "reopen": 8}
NAMES = {code: name for name, code in CODES.items()}
# Bytes of each command, its code included.
SIZE = {1: 18, 2: 18, 3: 9, 4: 2, 5: 10, 6: 2, 7: 18, 8: 1}


class BadLine(Exception):
    """A line that is not in the text form."""


# Bytes of the parts

def element_bytes(family, exponents):
    """The 17 bytes of an element; exponents may be fewer than eight."""
    exponents = list(exponents) + [0] * (8 - len(exponents))
    return bytes([family]) + b"".join(e.to_bytes(2, "big") for e in exponents)


def order_bytes(numbers):
    """Eight order bytes, padded with zeros."""
    numbers = list(numbers)
    return bytes(numbers + [0] * (8 - len(numbers)))


# From text to bytes

def number(word, largest, what):
    """A decimal number of the text form."""
    if not re.fullmatch("[0-9]+", word) or int(word) > largest:
        raise BadLine(f"{what} is a number from 0 to {largest}, not {word}")
    return int(word)


def named(word, names, what):
    """A name from a table, or the number of any byte."""
    if word in names:
        return names[word]
    if word.isdigit():
        return number(word, 255, what)
    raise BadLine(f"{what} is {', '.join(names)} or a number, not {word}")


def read_element(words):
    """The 17 bytes of an element in the text form."""
    family, exponents = 0, [0] * 8
    if words and re.fullmatch("d[0-9]+", words[0]):
        family = number(words[0][1:], 255, "a family")
        words = words[1:]
    if words == ["1"]:
        words = []
    elif not words:
        raise BadLine("an element is missing; the term 1 is written 1")
    seen = set()
    for word in words:
        factor = re.fullmatch(r"x([1-8])(?:\^([0-9]+))?", word)
        if not factor:
            raise BadLine(f"a power is written as x1 or x1^3, not {word}")
        v = int(factor[1])
        if v in seen:
            raise BadLine(f"x{v} stands twice")
        seen.add(v)
        exponents[v - 1] = number(factor[2] or "1", 65535, "an exponent")
    return element_bytes(family, exponents)


def read_order(words):
    """Eight order bytes in the text form."""
    if not 1 <= len(words) <= 8:
        raise BadLine("one to eight order bytes are needed")
    return order_bytes(number(w, 255, "an order byte") for w in words)


def read_raw(words):
    """Raw bytes."""
    for word in words:
        if not re.fullmatch("[0-9A-Fa-f]{2}", word):
            raise BadLine(f"a raw byte is two hexadecimal digits, not {word}")
    return bytes(int(word, 16) for word in words)


def exactly(words, count, what):
    """Refuse a wrong number of words."""
    if len(words) != count:
        raise BadLine(f"{what} takes {count} word{'s' * (count != 1)} "
                      f"after it, not {len(words)}")


def read_line(words, place):
    """The bytes of one line that stands at a place of the log."""
    name, rest = words[0], words[1:]
    if name == "bytes":
        return read_raw(rest)
    if name in ("variables", "kind"):
        exactly(rest, 1, name)
        if place != (name == "kind"):
            raise BadLine("variables comes first, then kind, each once")
        if name == "kind":
            return bytes([named(rest[0], KINDS, "the kind")])
        return bytes([number(rest[0], 255, "the variable count")])
    if name not in CODES:
        raise BadLine(f"no command is called {name}")
    if place < 2:
        raise BadLine("a log begins with variables and kind")
    code = bytes([CODES[name]])
    if name in ("insert", "withdraw", "locate"):
        return code + read_element(rest)
    if name == "arrange":
        return code + read_order(rest)
    if name in ("verdict", "settle"):
        exactly(rest, 1, name)
        return code + bytes([named(rest[0], DIVISIONS, "a division")])
    if name == "weigh":
        if not rest:
            raise BadLine("weigh takes a division and an ordering")
        return (code + bytes([named(rest[0], DIVISIONS, "a division")])
                + read_order(rest[1:]))
    exactly(rest, 0, name)
    return code


def assemble(text):
    """The log of a text; BadLine names the line."""
    data = bytearray()
    for at, line in enumerate(text.split("\n"), 1):
        words = line.split("#", 1)[0].split()
        if not words:
            continue
        try:
            data += read_line(words, len(data))
        except BadLine as bad:
            raise BadLine(f"line {at}: {bad}") from None
    return bytes(data)


# From bytes to text

def name_of(value, names):
    """The name of a byte, or its number."""
    for name, known in names.items():
        if known == value:
            return name
    return str(value)


def write_element(seventeen, with_family):
    """An element in the text form."""
    words = []
    if seventeen[0] or with_family:
        words.append(f"d{seventeen[0]}")
    powers = []
    for v in range(1, 9):
        e = int.from_bytes(seventeen[2 * v - 1:2 * v + 1], "big")
        if e:
            powers.append(f"x{v}" if e == 1 else f"x{v}^{e}")
    return " ".join(words + (powers or ["1"]))


def write_order(eight):
    """Order bytes in the text form, without the zeros at the end."""
    numbers = bytes(eight).rstrip(b"\0") or b"\0"
    return " ".join(map(str, numbers))


def write_raw(data):
    """Lines of raw bytes."""
    for at in range(0, len(data), 16):
        yield "bytes " + " ".join(f"{b:02X}" for b in data[at:at + 16])


def write_command(command, with_family):
    """One whole command in the text form."""
    name, rest = NAMES[command[0]], command[1:]
    if name in ("insert", "withdraw", "locate"):
        return f"{name} {write_element(rest, with_family)}"
    if name == "arrange":
        return f"{name} {write_order(rest)}"
    if name in ("verdict", "settle"):
        return f"{name} {name_of(rest[0], DIVISIONS)}"
    if name == "weigh":
        return f"{name} {name_of(rest[0], DIVISIONS)} {write_order(rest[1:])}"
    return name


def text_lines(data):
    """The lines of the text form of a log."""
    if len(data) < 2:
        yield from write_raw(data)
        return
    yield f"variables {data[0]}"
    yield f"kind {name_of(data[1], KINDS)}"
    place = 2
    while place < len(data):
        size = SIZE.get(data[place])
        if size is None or place + size > len(data):
            yield from write_raw(data[place:])
            return
        yield write_command(data[place:place + size], data[1] == 1)
        place += size


def disassemble(data):
    """The text form of a log."""
    return "".join(line + "\n" for line in text_lines(data))


def main():
    parser = argparse.ArgumentParser(description="text to log and back")
    parser.add_argument("--back", action="store_true",
                        help="read a log and write its text form")
    parser.add_argument("file", nargs="?", help="standard input if left out")
    args = parser.parse_args()
    if args.file:
        with open(args.file, "rb") as file:
            data = file.read()
    else:
        data = sys.stdin.buffer.read()
    if args.back:
        sys.stdout.write(disassemble(data))
        return 0
    try:
        log = assemble(data.decode("utf-8"))
    except UnicodeDecodeError:
        print(f"{args.file or 'input'}: not text", file=sys.stderr)
        return 1
    except BadLine as bad:
        print(f"{args.file or 'input'}: {bad}", file=sys.stderr)
        return 1
    sys.stdout.buffer.write(log)
    return 0


if __name__ == "__main__":
    sys.exit(main())
