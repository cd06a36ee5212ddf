"""Writes random scripts of calls, most of them accepted, with catalogues of every shape and words that are damaged in one place."""

from model import (
    ALL,
    AND,
    ANSWER,
    CHILD,
    END,
    IMAGE,
    MOST_ENTRIES,
    MOST_LINES,
    MOST_WORDS,
    NAME,
    NOT,
    NOTHING,
    OR,
    PARENT,
    PLACES,
    TOP_SERIAL,
    Files,
    Finder,
    answer_of,
    image_of,
    in_file,
    word,
    written,
)

SHAPES = ["tree", "graph", "chain", "layers", "dense", "bare"]


class Script:
    def __init__(self, lines, files):
        self.lines = lines
        self.files = files

    def input(self):
        return b"".join(line + b"\n" for line in self.lines)


def serial_pool(rng, size):
    """Serials close together, spread over the whole range, or with both ends of it."""
    style = rng.choice(["close", "spread", "ends"])
    if style == "close":
        return rng.sample(range(1, 2 * size + 2), size)
    pool = rng.sample(range(1, TOP_SERIAL + 1), size)
    if style == "ends":
        pool[:4] = [1, 2, TOP_SERIAL, TOP_SERIAL - 1]
    return list(dict.fromkeys(pool))


def lines_of_shape(rng, shape, kinds, most):
    """Lines without a ring: each child comes before its parent in the order of `kinds`."""
    lines = set()
    for at, child in enumerate(kinds[:-1]):
        above = kinds[at + 1 :]
        if shape == "tree":
            parents = [rng.choice(above)]
        elif shape == "graph":
            parents = rng.choices(above, k=rng.randint(0, 3))
        elif shape == "chain":
            parents = above[:1]
        elif shape == "layers":
            width = max(2, len(kinds) // 4)
            parents = rng.choices(above[width : 2 * width] or above[:1], k=rng.randint(0, 2))
        elif shape == "dense":
            parents = [parent for parent in above if rng.random() < 0.3]
        else:
            parents = []
        lines.update((child, parent) for parent in parents)
    chosen = sorted(lines)
    return set(chosen if len(chosen) <= most else rng.sample(chosen, most))


def question_tree(rng, leaves, nots, leaf):
    """Words of one value: `leaves` leaves and `nots` nots, the operators after their operands."""
    if leaves == 1:
        return [leaf()] + [word(NOT)] * nots
    here = rng.randint(0, nots) if rng.random() < 0.3 else 0
    left_nots = rng.randint(0, nots - here)
    # Mostly lopsided, so that long questions seldom need many entries.
    left = rng.choice([leaves - 1, leaves - 1, max(1, leaves // 2), rng.randint(1, leaves - 1)])
    words = question_tree(rng, left, left_nots, leaf)
    words += question_tree(rng, leaves - left, nots - here - left_nots, leaf)
    return words + [word(rng.choice([AND, OR]))] + [word(NOT)] * here


def damaged(rng, words, bad_serials):
    """The same words with one fault or two, some of which the rules forgive."""
    words = list(words)
    for _ in range(rng.choice([1, 1, 1, 2])):
        at = rng.randrange(len(words)) if words else 0
        kind = rng.randrange(16)
        way = rng.randrange(10)
        if way == 0 or not words:
            words.insert(at, word(kind, rng.choice([0, 1, len(words), rng.randint(0, TOP_SERIAL)])))
        elif way == 1:
            words[at] = word(kind, words[at] & TOP_SERIAL)
        elif way == 2:
            words[at] = word(words[at] >> 28, rng.choice(bad_serials))
        elif way == 3:
            words[at] = words[at] ^ 1 << rng.randrange(32)
        elif way == 4:
            del words[at]
        elif way == 5:
            words.insert(at, words[at])
        elif way == 6:
            other = rng.randrange(len(words))
            words[at], words[other] = words[other], words[at]
        elif way == 7:
            words = words[:at]
        elif way == 8:
            words.append(rng.choice(words))
        else:
            end = -1 if rng.random() < 0.5 else 0
            words[end] = word(words[end] >> 28, max(0, (words[end] & TOP_SERIAL) + rng.choice([-1, 1])))
    return words


def damaged_image(rng, kinds, lines):
    """An image with a fault that its own end still counts right, so that the fault in the middle is the one to be told."""
    names = [word(NAME, serial) for serial in sorted(kinds)]
    pairs = [[word(CHILD, child), word(PARENT, parent)] for child, parent in sorted(lines)]
    way = rng.randrange(8)
    if way == 0 and names:
        names.insert(rng.randrange(len(names)), rng.choice(names))
    elif way == 1 and pairs:
        pairs.insert(rng.randrange(len(pairs)), rng.choice(pairs))
    elif way == 2 and pairs:
        pairs.append(pairs[-1])
    elif way == 3 and pairs:
        rng.choice(pairs).reverse()
    elif way == 4 and pairs:
        pair = rng.choice(pairs)
        pair[1] = word(PARENT, pair[0] & TOP_SERIAL)
    elif way == 5 and pairs:
        pair = rng.choice(pairs)
        pair[rng.randrange(2)] ^= 1 << rng.randrange(28)
    elif way == 6 and pairs:
        rng.shuffle(pairs)
    elif way == 7 and pairs:
        rng.choice(pairs).pop()
    elif names:
        rng.shuffle(names)
    words = [word(IMAGE, len(names))] + names + [each for pair in pairs for each in pair]
    return words + [word(END, len(words))]


class Writer:
    """Writes one script and follows it in the model, so that it knows what stands and which answers there were."""

    def __init__(self, rng, kinds, calls):
        self.rng = rng
        self.target = kinds
        self.calls = calls
        self.pool = serial_pool(rng, kinds + max(5, kinds // 3))
        self.rank = {serial: rng.random() for serial in self.pool}
        self.shape = rng.choice(SHAPES)
        self.kept = []
        self.lines = []
        self.files = {}
        self.finder = Finder(Files())

    @property
    def catalogue(self):
        return self.finder.catalogue

    def say(self, line):
        line = line.encode() if isinstance(line, str) else line
        self.lines.append(line)
        due = self.finder.answer(line)
        return due.text if due else ""

    def say_words(self, call, words):
        return self.say(f"{call} {written(words)}")

    def put_file(self, name, contents):
        """A file that lies there from the start of the run."""
        self.files[name] = contents
        self.finder.files.put(name, contents)

    # What to speak of

    def standing(self):
        return sorted(self.catalogue.kinds)

    def some_kind(self):
        standing = self.standing()
        return self.rng.choice(standing) if standing else self.rng.choice(self.pool)

    def bad_serials(self):
        gone = [serial for serial in self.pool if serial not in self.catalogue.kinds]
        return [0, 0, 1, TOP_SERIAL] + gone[:3] + [self.some_kind()]

    def odd_serial(self):
        return self.rng.choice([0, TOP_SERIAL, TOP_SERIAL + 1, 2**32 - 1] + self.bad_serials())

    def any_serial(self):
        return self.odd_serial() if self.rng.random() < 0.15 else self.some_kind()

    def odd_line(self):
        """The same kind twice, or faults at the child, at the parent or at both."""
        child = self.rng.choice([self.some_kind, self.odd_serial])()
        return child, self.rng.choice([self.some_kind(), self.odd_serial(), self.odd_serial(), child])

    def missing_kind(self):
        gone = [serial for serial in self.pool if serial not in self.catalogue.kinds]
        return self.rng.choice(gone) if gone else None

    def leaf(self):
        pick = self.rng.random()
        if pick < 0.04:
            return word(ALL)
        if pick < 0.07:
            return word(NOTHING)
        return word(NAME, self.some_kind())

    def new_line(self):
        child, parent = self.some_kind(), self.some_kind()
        if self.rank.get(child, 0) > self.rank.get(parent, 0):
            child, parent = parent, child
        return child, parent

    # The catalogue

    def kinds_and_lines(self, most_lines=MOST_LINES):
        kinds = self.rng.sample(self.pool, min(self.target, len(self.pool)))
        kinds.sort(key=self.rank.get)
        return set(kinds), lines_of_shape(self.rng, self.shape, kinds, most_lines)

    def fill_by_calls(self):
        kinds, lines = self.kinds_and_lines()
        for serial in self.rng.sample(sorted(kinds), len(kinds)):
            self.say(f"enter {serial}")
        for child, parent in self.rng.sample(sorted(lines), len(lines)):
            self.say(f"line {child} {parent}")

    def fill_by_image(self):
        self.say_words("read", image_of(*self.kinds_and_lines()))

    def fill_by_file(self):
        name = f"start{len(self.files)}.img"
        self.put_file(name, in_file(image_of(*self.kinds_and_lines())))
        self.say(f"load {name}")

    def fill(self):
        if len(self.pool) > 100:
            self.rng.choice([self.fill_by_image, self.fill_by_file])()
        else:
            self.rng.choice([self.fill_by_calls, self.fill_by_image, self.fill_by_file])()

    def empty(self):
        for child, parent in sorted(self.catalogue.lines):
            self.say(f"unline {child} {parent}")
        for serial in self.standing():
            self.say(f"withdraw {serial}")

    def close(self):
        if not self.catalogue.closed:
            self.say("close")

    def enter(self):
        serial = self.missing_kind()
        if serial is None or self.rng.random() < 0.1:
            serial = self.any_serial()
        self.say(f"enter {serial}")
        if serial in self.catalogue.kinds and self.rng.random() < 0.7:
            self.say("line {} {}".format(*self.new_line()))

    def withdraw(self):
        serial = self.any_serial()
        if self.rng.random() < 0.7:
            for child, parent in sorted(self.catalogue.lines):
                if serial in (child, parent):
                    self.say(f"unline {child} {parent}")
        self.say(f"withdraw {serial}")

    def line(self):
        child, parent = self.odd_line() if self.rng.random() < 0.2 else self.new_line()
        self.say(f"line {child} {parent}")

    def unline(self):
        lines = sorted(self.catalogue.lines)
        child, parent = self.rng.choice(lines) if lines and self.rng.random() < 0.85 else self.odd_line()
        self.say(f"unline {child} {parent}")

    def ring(self):
        """A line from above to below, a closing that finds the ring, and the line taken back."""
        below = self.catalogue.descents()
        pairs = [(top, low) for top in self.standing() for low in sorted(below[top] - {top}) if (top, low) not in self.catalogue.lines]
        if not pairs:
            return
        added = self.rng.sample(pairs, min(len(pairs), self.rng.choice([1, 1, 2, 3])))
        for top, low in added:
            self.say(f"line {top} {low}")
        self.say("close")
        self.say(f"ask {written([self.leaf()])}")
        for top, low in added:
            self.say(f"unline {top} {low}")
        self.say("close")

    # Questions

    def question(self):
        leaves = self.rng.choice([1, 1, 2, 2, 2, 3, 3, 4, 5, 8, 13, 30])
        nots = self.rng.choice([0, 0, 1, 1, 2, leaves])
        return question_tree(self.rng, leaves, nots, self.leaf)

    def maybe_damaged(self, words):
        return damaged(self.rng, words, self.bad_serials()) if self.rng.random() < 0.12 else words

    def ask(self):
        if self.rng.random() < 0.95:
            self.close()
        answer = self.say_words("ask", self.maybe_damaged(self.question()))
        if answer.startswith("ok "):
            self.kept.append([int(field, 16) for field in answer.split()[1:]])

    def fit(self):
        if self.rng.random() < 0.95:
            self.close()
        self.say_words(f"fit {self.any_serial()}", self.maybe_damaged(self.question()))

    def same_question_for_all(self):
        """One question, asked, and fitted to each standing kind."""
        self.close()
        words = self.question()
        self.say_words("ask", words)
        for serial in self.rng.sample(self.standing(), min(12, len(self.catalogue.kinds))):
            self.say_words(f"fit {serial}", words)

    def question_at_an_edge(self):
        self.close()
        names = [word(NAME, self.some_kind()) for _ in range(MOST_ENTRIES + 1)]
        operators = [word(self.rng.choice([AND, OR])) for _ in range(MOST_ENTRIES)]
        full = names[:MOST_ENTRIES] + operators[: MOST_ENTRIES - 1]
        deep = names + operators
        nots = self.rng.randint(0, 200) * 2 + 1
        longest = question_tree(self.rng, (MOST_WORDS + 1 - nots) // 2, nots, self.leaf)
        words = self.rng.choice(
            [
                full,
                deep,
                names[:MOST_ENTRIES],
                names[: MOST_ENTRIES - 1] + [word(ALL), word(NOTHING)],
                longest,
                longest + [word(NOT)],
                longest + [word(15)],
                longest[:-1] + [word(0)],
                [],
                [word(NOT)],
                [word(AND)],
                [word(NAME, self.some_kind()), word(OR)],
                [word(NAME, 0)],
                [word(ALL, 1)],
                full[:-1],
            ]
        )
        self.say_words(self.rng.choice(["ask", "ask", f"fit {self.any_serial()}"]), words)

    # Kept answers

    def some_answer(self):
        if self.kept and self.rng.random() < 0.7:
            return self.rng.choice(self.kept)
        most = min(len(self.pool), 600)
        return answer_of(self.rng.sample(self.pool, self.rng.randint(0, self.rng.choice([3, 10, most]) if most > 10 else most)))

    def recall(self):
        self.say_words("recall", self.maybe_damaged(self.some_answer()))

    def kits(self):
        words = []
        for _ in range(self.rng.randint(0, 12)):
            words += self.maybe_damaged(self.some_answer())
        name = f"kept{len(self.files)}.kits"
        contents = in_file(words)
        if self.rng.random() < 0.05:
            contents += b"\x70"
        self.put_file(name, contents)
        self.say(f"kits {name}")
        self.withdraw()
        self.say(f"kits {name}")

    # Images

    def write(self):
        self.say("write")

    def some_image(self):
        kinds, lines = self.kinds_and_lines()
        way = self.rng.random()
        if way < 0.15:
            return image_of(kinds, lines)
        if way < 0.6:
            return damaged_image(self.rng, kinds, lines)
        return damaged(self.rng, image_of(kinds, lines), self.bad_serials())

    def images(self):
        """Reads images until one is accepted: mostly in an empty catalogue, where it is not too large to be emptied."""
        if len(self.catalogue.kinds) <= 30 and self.rng.random() < 0.7:
            self.empty()
        if self.rng.random() < 0.3:
            self.close()
        for _ in range(8):
            self.say_words("read", self.some_image())
            if self.catalogue.kinds:
                break
        if not self.catalogue.kinds:
            self.fill()

    def save_and_load(self):
        name = self.rng.choice(["a.img", "b.img", "c.img"])
        self.say(f"save {name}")
        if len(self.catalogue.kinds) <= 30 and self.rng.random() < 0.7:
            self.empty()
        self.say(f"load {self.rng.choice(['a.img', 'b.img', name, 'none.img'])}")
        if not self.catalogue.kinds:
            self.say(f"load {name}")

    def noise(self):
        """What is no call, or one told oddly."""
        serial = self.some_kind()
        self.say(
            self.rng.choice(
                [
                    "",
                    "   ",
                    "\t\r",
                    "# enter 5",
                    "  # spaces before",
                    "entre 5",
                    "ENTER 5",
                    "enter",
                    "enter 5 6",
                    f"  enter\t{serial}  \r",
                    f"enter 000{serial}",
                    "enter 0",
                    f"enter {TOP_SERIAL + 1}",
                    f"enter {2**32 - 1}",
                    f"enter {2**32}",
                    f"enter {2**64 + 5}",
                    "enter -5",
                    "enter 5.0",
                    "enter 0x5",
                    "enter ٣",
                    f"line {serial}",
                    "close 1",
                    "write 1",
                    "help",
                    "help me",
                    "fit",
                    f"fit {serial}",
                    f"fit {word(NAME, serial):08X}",
                    "ask 1000000",
                    "ask 100000000",
                    "ask 0x100000",
                    f"ask {word(ALL):08x}",
                    f"ask {word(NAME, serial):08x} GGGGGGGG",
                    f"recall {word(ANSWER, 1):08x} {word(NAME, serial):08x}",
                    "recall 7000000é",
                    "load",
                    "load no such file",
                    "kits none.kits",
                    "save",
                    "save a b",
                    b"enter \xff\xfe",
                    b"load \xff\xfe",
                    b"enter 5\x00",
                    b"\x00",
                ]
            )
        )

    def write_all(self):
        steps = {
            self.ask: 40,
            self.fit: 10,
            self.same_question_for_all: 3,
            self.question_at_an_edge: 3,
            self.recall: 10,
            self.enter: 5,
            self.withdraw: 5,
            self.line: 4,
            self.unline: 4,
            self.ring: 2,
            self.kits: 1,
            self.write: 2,
            self.images: 2,
            self.save_and_load: 1,
            self.noise: 3,
        }
        if self.rng.random() < 0.5:
            self.noise()
        if self.rng.random() < 0.1:
            self.close()
            self.question_at_an_edge()
        if self.rng.random() < 0.3:
            self.images()
        if not self.catalogue.kinds:
            self.fill()
        while len(self.lines) < self.calls:
            (step,) = self.rng.choices(list(steps), weights=list(steps.values()))
            step()
        self.say("write")
        return Script(self.lines, self.files)


def script_at_the_bounds(rng):
    """All places taken and as many lines as may stand, by an image; then one more and one fewer of each."""
    writer = Writer(rng, PLACES, 0)
    writer.shape = "dense"
    kinds, lines = writer.kinds_and_lines(MOST_LINES + 1)
    extra = rng.choice(sorted(lines))
    other = next(serial for serial in writer.pool if serial not in kinds)
    most = lines - {extra}
    writer.say_words("read", image_of(kinds | {other}, set()))
    writer.say_words("read", image_of(kinds, lines))
    writer.say_words("read", image_of(kinds, most))
    writer.say(f"enter {other}")
    writer.say("line {} {}".format(*extra))
    writer.say("line {} {}".format(*rng.choice(sorted(most))))
    writer.say("close")
    for _ in range(20):
        writer.ask()
        writer.fit()
    writer.question_at_an_edge()
    gone = rng.choice(sorted(most))
    writer.say("unline {} {}".format(*gone))
    writer.say("line {} {}".format(*extra))
    writer.say("line {} {}".format(*gone))
    writer.withdraw()
    writer.say(f"enter {other}")
    writer.say(f"enter {other}")
    writer.say_words("recall", answer_of(kinds | {other}))
    for _ in range(20):
        writer.ask()
    writer.ring()
    writer.kits()
    for _ in range(10):
        writer.recall()
    writer.say("save full.img")
    writer.say("write")
    return Script(writer.lines, writer.files)


def random_script(rng, small=False):
    pick = rng.random()
    if small or pick < 0.85:
        return Writer(rng, rng.randint(5, 60), rng.randint(80, 250)).write_all()
    if pick < 0.90:
        return Writer(rng, rng.randint(1, 4), 120).write_all()
    if pick < 0.96:
        return Writer(rng, rng.randint(200, PLACES), 120).write_all()
    return script_at_the_bounds(rng)
