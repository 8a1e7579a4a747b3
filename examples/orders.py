#!/usr/bin/env python3
"""Order files as text, and text as order files.

  orders.py write TEXT FILE    write the order file that a text describes
  orders.py show FILE          show an order file as text, with the place of each order
  orders.py check              show that each *.txt beside this script gives its *.orders, and back

A text has one order to a line; '#' starts a comment:

  add NUMBER PRIORITY ACTION RULE    RULE is a dial pattern in quotes, or words A and B in hexadecimal
  drop NUMBER
  change NUMBER ACTION
  look SUBJECT                       a dialled subject in quotes, or one word in hexadecimal
  step | complete | withdraw
  bytes HEX HEX ..                   bytes as they are, for damaged files

The signs of a pattern are 0 to 9, *, #, X (any digit), Z (any digit but 0) and ! (the rest).
"""
import glob
import os
import shlex
import sys

MARK = b"KT"
SIGNS = "0123456789*#XZ!"
END = 15
PLACES = 16
BODIES = {"A": 24, "D": 2, "C": 6, "L": 8, "S": 0, "E": 0, "W": 0}
BARE = {"step": "S", "complete": "E", "withdraw": "W"}


def word_of(signs):
    """The word of a dial pattern or subject: four bits a place, the first highest, ends behind."""
    if len(signs) > PLACES:
        raise ValueError(f"more than {PLACES} signs: {signs}")
    codes = [SIGNS.index(sign) for sign in signs] + [END] * (PLACES - len(signs))
    word = 0
    for code in codes:
        word = word * 16 + code
    return word


def signs_of(word):
    """The signs of a word whose places after the first end are all ends, else none."""
    codes = [(word >> (60 - 4 * place)) & 15 for place in range(PLACES)]
    used = codes.index(END) if END in codes else PLACES
    if any(code != END for code in codes[used:]):
        return None
    return "".join(SIGNS[code] for code in codes[:used])


def number(text, size):
    value = int(text, 0)
    if not 0 <= value < 256**size:
        raise ValueError(f"{text} does not fit {size} bytes")
    return value.to_bytes(size, "big")


def is_quoted(text):
    return len(text) >= 2 and text[0] == '"' and text[-1] == '"'


def word(text):
    if is_quoted(text):
        return word_of(text[1:-1]).to_bytes(8, "big")
    return number(text, 8)


def rule_words(fields):
    if len(fields) == 1 and is_quoted(fields[0]):
        return word(fields[0]) + bytes(8)
    if len(fields) == 2:
        return number(fields[0], 8) + number(fields[1], 8)
    raise ValueError("a rule is a pattern in quotes, or two words")


def order(line):
    """The bytes of one line, none for an empty one."""
    lexer = shlex.shlex(line, posix=False)
    lexer.whitespace_split = True
    lexer.quotes = '"'
    lexer.commenters = "#"
    name, *fields = list(lexer) or [""]
    if name == "":
        return b""
    if name == "add" and len(fields) >= 4:
        body = number(fields[0], 2) + number(fields[1], 2) + number(fields[2], 4)
        return MARK + b"A" + body + rule_words(fields[3:])
    if name == "drop" and len(fields) == 1:
        return MARK + b"D" + number(fields[0], 2)
    if name == "change" and len(fields) == 2:
        return MARK + b"C" + number(fields[0], 2) + number(fields[1], 4)
    if name == "look" and len(fields) == 1:
        return MARK + b"L" + word(fields[0])
    if name in BARE and not fields:
        return MARK + BARE[name].encode()
    if name == "bytes" and fields:
        return bytes(int(field, 16) for field in fields)
    raise ValueError("no such order, or another number of fields")


def file_of(text):
    out = b""
    for place, line in enumerate(text.splitlines(), 1):
        try:
            out += order(line.strip())
        except ValueError as fault:
            raise SystemExit(f"line {place}: {line.strip()}: {fault}")
    return out


def shown_word(value):
    signs = signs_of(value)
    return f"0x{value:016X}" if signs is None else f'"{signs}"'


def shown(letter, body):
    def field(start, size):
        return int.from_bytes(body[start : start + size], "big")

    if letter == "A":
        a, b = field(8, 8), field(16, 8)
        words = f"0x{a:016X} 0x{b:016X}" if b or signs_of(a) is None else shown_word(a)
        return f"add {field(0, 2)} {field(2, 2)} {field(4, 4)} {words}"
    if letter == "D":
        return f"drop {field(0, 2)}"
    if letter == "C":
        return f"change {field(0, 2)} {field(2, 4)}"
    if letter == "L":
        return f"look {shown_word(field(0, 8))}"
    return {bare: name for name, bare in BARE.items()}[letter]


def text_of(data):
    """One line for each order, with its place; what follows the last whole order is shown as bytes."""
    lines, place = [], 0
    while place < len(data):
        head = data[place : place + 3]
        letter = chr(head[2]) if len(head) == 3 else ""
        size = BODIES.get(letter)
        if head[:2] != MARK or size is None or len(data) < place + 3 + size:
            rest = "bytes " + " ".join(f"{byte:02X}" for byte in data[place:])
            lines.append(f"{rest}  # {place}")
            break
        lines.append(f"{shown(letter, data[place + 3 : place + 3 + size])}  # {place}")
        place += 3 + size
    return "".join(line + "\n" for line in lines)


def read(path):
    with open(path, "rb") as file:
        return file.read()


def check(folder):
    texts = sorted(glob.glob(os.path.join(folder, "*.txt")))
    for path in texts:
        data = read(path[: -len(".txt")] + ".orders")
        if file_of(read(path).decode()) != data:
            raise SystemExit(f"{path} does not give its order file")
        if file_of(text_of(data)) != data:
            raise SystemExit(f"{path}: the order file shown as text gives another file")
    print(f"{len(texts)} example files, each as its text says")


def main(words):
    if words[:1] == ["write"] and len(words) == 3:
        data = file_of(read(words[1]).decode())
        with open(words[2], "wb") as file:
            file.write(data)
    elif words[:1] == ["show"] and len(words) == 2:
        print(text_of(read(words[1])), end="")
    elif words == ["check"]:
        check(os.path.dirname(os.path.abspath(__file__)))
    else:
        raise SystemExit(__doc__.strip())


if __name__ == "__main__":
    main(sys.argv[1:])
