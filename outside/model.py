#!/usr/bin/env python3
"""A second finder, written from the pages in docs/ and not from the crates' code or specs: plain sets, no codes and no places.

As a program it serves the line protocol as `finder` does: model.py [--code bits|packets] [IMAGE].
"""

import re
import sys
from pathlib import Path

TOP_SERIAL = 2**28 - 1
PLACES = 512
MOST_LINES = 2048
MOST_WORDS = 1024
MOST_ENTRIES = 32

NAME, AND, OR, NOT, ALL, NOTHING, ANSWER, IMAGE, CHILD, PARENT, RING = range(1, 12)
END = 15

PARTS = {
    "lists": [1],
    "serial": [2],
    "kind": [3, 4, 5, 6],
    "line": [7, 8, 9, 10],
    "closing": [11],
    "question": [12, 13, 14, 15, 16, 17],
    "image": [18, 19],
    "answer": [20],
    "code": [21],
}
PART_OF = {number: part for part, numbers in PARTS.items() for number in numbers}


class Refused(Exception):
    def __init__(self, number, index=0):
        super().__init__(number, index)
        self.number = number
        self.index = index

    def __str__(self):
        return f"refused {self.number} at {self.index} by {PART_OF[self.number]}"


class NoCall(Exception):
    """What is no call: the sentence behind `error` is free."""


def refuse_if(condition, number, index=0):
    if condition:
        raise Refused(number, index)


def check_serial(serial, index=0):
    refuse_if(not 1 <= serial <= TOP_SERIAL, 2, index)


# Words


def word(kind, low=0):
    return kind << 28 | low


def taken_apart(words, index):
    """A word's kind and its low bits; no kind where the word is missing."""
    if index >= len(words):
        return None, 0
    return words[index] >> 28, words[index] & TOP_SERIAL


def written(words):
    return " ".join(f"{each:08X}" for each in words)


def in_file(words):
    return b"".join(each.to_bytes(4, "big") for each in words)


def from_file(contents):
    if len(contents) % 4 != 0:
        raise NoCall("the file ends inside a word")
    return [int.from_bytes(contents[at : at + 4], "big") for at in range(0, len(contents), 4)]


# Kept answers


def answer_of(serials):
    return [word(ANSWER, len(serials))] + [word(NAME, serial) for serial in sorted(serials)]


def names_of_answer(words):
    kind, count = taken_apart(words, 0)
    refuse_if(kind != ANSWER, 20, 0)
    serials = []
    # A count far beyond the words is refused at the first missing one.
    for index in range(1, min(count, len(words)) + 1):
        kind, serial = taken_apart(words, index)
        refuse_if(kind != NAME, 20, index)
        check_serial(serial, index)
        refuse_if(serials and serial <= serials[-1], 20, index)
        serials.append(serial)
    refuse_if(len(words) > count + 1, 20, count + 1)
    return serials


def kits_of(words):
    """A kit ends before the next answer head, or after as many words as its head counts, whichever comes first."""
    at = 0
    while at < len(words):
        kind, count = taken_apart(words, at)
        end = at + 1
        while end < len(words) and taken_apart(words, end)[0] != ANSWER and (kind != ANSWER or end <= at + count):
            end += 1
        yield words[at:end]
        at = end


# Images


def image_of(kinds, lines):
    words = [word(IMAGE, len(kinds))] + [word(NAME, serial) for serial in sorted(kinds)]
    for child, parent in sorted(lines):
        words += [word(CHILD, child), word(PARENT, parent)]
    return words + [word(END, len(words))]


def kinds_of_image(words, places):
    kind, count = taken_apart(words, 0)
    refuse_if(kind != IMAGE, 19, 0)
    refuse_if(count > places, 4, 0)
    kinds = []
    for index in range(1, count + 1):
        kind, serial = taken_apart(words, index)
        refuse_if(kind != NAME, 19, index)
        check_serial(serial, index)
        refuse_if(kinds and serial <= kinds[-1], 19, index)
        kinds.append(serial)
    return kinds


def kind_in_line(words, index, due, kinds):
    kind, serial = taken_apart(words, index)
    refuse_if(kind != due, 19, index)
    check_serial(serial, index)
    refuse_if(serial not in kinds, 5, index)
    return serial


def read_image(words, places):
    kinds = kinds_of_image(words, places)
    known = set(kinds)
    lines = []
    index = 1 + len(kinds)
    while taken_apart(words, index)[0] != END:
        child = kind_in_line(words, index, CHILD, known)
        parent = kind_in_line(words, index + 1, PARENT, known)
        refuse_if(child == parent, 7, index + 1)
        refuse_if(len(lines) == MOST_LINES, 9, index + 1)
        refuse_if(lines and (child, parent) <= lines[-1], 19, index + 1)
        lines.append((child, parent))
        index += 2
    refuse_if(taken_apart(words, index)[1] != index, 19, index)
    refuse_if(len(words) > index + 1, 19, index + 1)
    return known, set(lines)


def all_below(top, children):
    found = set()
    left = [top]
    while left:
        kind = left.pop()
        if kind not in found:
            found.add(kind)
            left += children[kind]
    return found


def is_ring(serials, lines):
    """Two or more different kinds, each with a line to the next, and the last with one to the first."""
    return (
        len(serials) >= 2
        and len(set(serials)) == len(serials)
        and all(line in lines for line in zip(serials, serials[1:] + serials[:1]))
    )


class Catalogue:
    def __init__(self, places=PLACES):
        self.places = places
        self.kinds = set()
        self.lines = set()
        self.changed()

    def changed(self):
        self.closed = False
        self.known_descents = {}

    # Kinds and lines

    def check_stands(self, serial, index=0):
        check_serial(serial, index)
        refuse_if(serial not in self.kinds, 5, index)

    def check_line(self, child, parent):
        self.check_stands(child)
        self.check_stands(parent)
        refuse_if(child == parent, 7)

    def enter(self, serial):
        check_serial(serial)
        refuse_if(serial in self.kinds, 3)
        refuse_if(len(self.kinds) == self.places, 4)
        self.kinds.add(serial)
        self.changed()

    def withdraw(self, serial):
        self.check_stands(serial)
        refuse_if(any(serial in line for line in self.lines), 6)
        self.kinds.remove(serial)
        self.changed()

    def line(self, child, parent):
        self.check_line(child, parent)
        refuse_if((child, parent) in self.lines, 8)
        refuse_if(len(self.lines) == MOST_LINES, 9)
        self.lines.add((child, parent))
        self.changed()

    def unline(self, child, parent):
        self.check_line(child, parent)
        refuse_if((child, parent) not in self.lines, 10)
        self.lines.remove((child, parent))
        self.changed()

    # Images

    def read(self, words):
        refuse_if(self.kinds, 18)
        self.kinds, self.lines = read_image(words, self.places)
        self.changed()

    def write(self):
        return image_of(self.kinds, self.lines)

    # Closing

    def descents(self):
        """Each standing kind with the kinds that descend from it, whether or not a ring stands."""
        if not self.known_descents:
            children = {kind: [] for kind in self.kinds}
            for child, parent in self.lines:
                children[parent].append(child)
            self.known_descents = {kind: all_below(kind, children) for kind in self.kinds}
        return self.known_descents

    def has_ring(self):
        descents = self.descents()
        return any(parent in descents[child] for child, parent in self.lines)

    def close(self):
        refuse_if(self.has_ring(), 11)
        self.closed = True

    # Questions

    def check_question(self, words):
        refuse_if(not self.closed, 12)
        refuse_if(not 1 <= len(words) <= MOST_WORDS, 13)

    def leaf(self, words, index):
        """The value of a name, of all and of nothing; no value for the other words."""
        kind, low = taken_apart(words, index)
        if kind == NAME:
            self.check_stands(low, index)
            return self.descents()[low]
        refuse_if(kind not in (AND, OR, NOT, ALL, NOTHING) or low != 0, 14, index)
        return {ALL: self.kinds, NOTHING: set()}.get(kind)

    def negated(self, value):
        return self.kinds - value

    def set_of(self, words):
        stack = []
        for index in range(len(words)):
            value = self.leaf(words, index)
            if value is not None:
                refuse_if(len(stack) == MOST_ENTRIES, 15, index)
                stack.append(value)
                continue
            kind, _ = taken_apart(words, index)
            refuse_if(len(stack) < (1 if kind == NOT else 2), 16, index)
            last = stack.pop()
            if kind == NOT:
                stack.append(self.negated(last))
            elif kind == AND:
                stack.append(stack.pop() & last)
            else:
                stack.append(stack.pop() | last)
        refuse_if(len(stack) != 1, 17)
        return stack[0]

    def covered(self, chosen):
        return {kind for kind, below in self.descents().items() if below <= chosen}

    def uppermost(self, chosen):
        covered = self.covered(chosen)
        under_another = set()
        for kind in covered:
            under_another |= self.descents()[kind] - {kind}
        return covered - under_another

    def ask(self, words):
        self.check_question(words)
        return answer_of(self.uppermost(self.set_of(words)))

    def fit(self, serial, words):
        self.check_question(words)
        self.check_stands(serial)
        return serial in self.set_of(words)

    # Kept answers

    def recall(self, words):
        return answer_of([serial for serial in names_of_answer(words) if serial in self.kinds])

    def recall_kits(self, words):
        kits = changed = 0
        for kit in kits_of(words):
            kits += 1
            try:
                changed += self.recall(kit) != kit
            except Refused:
                pass
        return kits, changed


class Expected:
    """The answer that is due; of an error only its first word, of a ring only that it is one."""

    def __init__(self, text, lines=None):
        self.text = text
        self.lines = lines

    def __str__(self):
        return f"{self.text} ring (any ring of the standing lines)" if self.lines is not None else self.text

    def allows(self, got):
        if self.lines is not None:
            return self.allows_ring(got)
        if self.text == "error":
            return got.startswith("error ")
        return got == self.text

    def allows_ring(self, got):
        start = f"{self.text} ring "
        if not got.startswith(start) or not re.fullmatch(r"[0-9A-F]{8}( [0-9A-F]{8})*", got[len(start) :]):
            return False
        words = [int(field, 16) for field in got[len(start) :].split(" ")]
        return (
            words[0] == word(RING, len(words) - 1)
            and all(each >> 28 == NAME for each in words[1:])
            and is_ring([each & TOP_SERIAL for each in words[1:]], self.lines)
        )


def serial_in(field):
    """A decimal number; one that does not fit 32 bits is no serial that could be handed in."""
    digits = field.lstrip(b"0")
    if not re.fullmatch(rb"[0-9]+", field) or len(digits) > 10 or int(digits or b"0") >= 2**32:
        raise NoCall("a serial is decimal")
    return int(digits or b"0")


def word_in(field):
    if not re.fullmatch(rb"[0-9A-Fa-f]{8}", field):
        raise NoCall("a word is eight hexadecimal digits")
    return int(field, 16)


def words_in(fields):
    return [word_in(field) for field in fields]


def exactly(count, fields):
    if len(fields) != count:
        raise NoCall("too few or too many fields")
    return fields


class Files:
    """The files of one run by their names, held in memory."""

    def __init__(self, contents=()):
        self.contents = dict(contents)

    def get(self, name):
        if name not in self.contents:
            raise NoCall("the file cannot be read")
        return self.contents[name]

    def put(self, name, contents):
        self.contents[name] = contents


class Finder:
    def __init__(self, files=None, catalogue=None):
        self.catalogue = catalogue or Catalogue()
        self.files = files or Files()

    def answer(self, line):
        """What is due for one line of bytes; None where it is passed over."""
        fields = [field for field in re.split(rb"[ \t\r]+", line.rstrip(b"\n")) if field]
        if not fields or fields[0].startswith(b"#"):
            return None
        try:
            result = self.call(fields[0], fields[1:])
            return Expected(f"ok {result}" if result else "ok")
        except NoCall:
            return Expected("error")
        except Refused as refusal:
            return Expected(str(refusal), set(self.catalogue.lines) if refusal.number == 11 else None)

    def call(self, verb, fields):
        calls = {
            b"enter": self.enter,
            b"withdraw": self.withdraw,
            b"line": self.line,
            b"unline": self.unline,
            b"read": self.read,
            b"write": self.write,
            b"close": self.close,
            b"recall": self.recall,
            b"ask": self.ask,
            b"fit": self.fit,
            b"load": self.load,
            b"save": self.save,
            b"kits": self.kits,
            b"help": self.help,
        }
        if verb not in calls:
            raise NoCall("no such call")
        return calls[verb](fields)

    def enter(self, fields):
        (serial,) = map(serial_in, exactly(1, fields))
        self.catalogue.enter(serial)

    def withdraw(self, fields):
        (serial,) = map(serial_in, exactly(1, fields))
        self.catalogue.withdraw(serial)

    def line(self, fields):
        child, parent = map(serial_in, exactly(2, fields))
        self.catalogue.line(child, parent)

    def unline(self, fields):
        child, parent = map(serial_in, exactly(2, fields))
        self.catalogue.unline(child, parent)

    def read(self, fields):
        self.catalogue.read(words_in(fields))

    def write(self, fields):
        exactly(0, fields)
        return written(self.catalogue.write())

    def close(self, fields):
        exactly(0, fields)
        self.catalogue.close()

    def recall(self, fields):
        return written(self.catalogue.recall(words_in(fields)))

    def ask(self, fields):
        return written(self.catalogue.ask(words_in(fields)))

    def fit(self, fields):
        if not fields:
            raise NoCall("too few fields")
        serial, words = serial_in(fields[0]), words_in(fields[1:])
        return "yes" if self.catalogue.fit(serial, words) else "no"

    def name_in(self, fields):
        (name,) = exactly(1, fields)
        try:
            return name.decode("utf-8")
        except UnicodeDecodeError:
            raise NoCall("the name of a file has to be UTF-8") from None

    def load(self, fields):
        self.catalogue.read(from_file(self.files.get(self.name_in(fields))))

    def save(self, fields):
        self.files.put(self.name_in(fields), in_file(self.catalogue.write()))

    def kits(self, fields):
        kits, changed = self.catalogue.recall_kits(from_file(self.files.get(self.name_in(fields))))
        return f"{kits} {changed}"

    def help(self, fields):
        exactly(0, fields)


class FilesOnDisk:
    def get(self, name):
        try:
            return Path(name).read_bytes()
        except (OSError, ValueError):
            raise NoCall("the file cannot be read") from None

    def put(self, name, contents):
        try:
            Path(name).write_bytes(contents)
        except (OSError, ValueError):
            raise NoCall("the file cannot be written") from None


def serve(finder, lines, out):
    for line in lines:
        due = finder.answer(line)
        if due is None:
            continue
        text = due.text
        if text == "error":
            text += " this is no call"
        if due.lines is not None:
            text += " ring " + written(some_ring(due.lines))
        out.write(text + "\n")
        out.flush()


def some_ring(lines):
    """Walks up from a kind that has itself above it, and only through kinds that have it above them."""
    catalogue = Catalogue()
    catalogue.lines = lines
    catalogue.kinds = {kind for line in lines for kind in line}
    below = catalogue.descents()
    child, parent = next(line for line in lines if line[1] in below[line[0]])
    ring = [child]
    while parent not in ring:
        ring.append(parent)
        parent = next(up for down, up in lines if down == parent and up in below[child])
    ring = ring[ring.index(parent) :]
    return [word(RING, len(ring))] + [word(NAME, serial) for serial in ring]


def main(arguments):
    if arguments[:1] == ["--code"]:
        arguments = arguments[2:]
    finder = Finder(FilesOnDisk())
    for name in arguments:
        finder.load([name.encode()])
    serve(finder, sys.stdin.buffer, sys.stdout)


if __name__ == "__main__":
    main(sys.argv[1:])
