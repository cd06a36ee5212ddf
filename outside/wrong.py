#!/usr/bin/env python3
"""Finders with one mistake each, and how many random scripts it takes until an answer gives the mistake away.

This holds the scripts themselves to account: a mistake that no script finds is one that the finder could have as well.
"""

import argparse
import importlib.util
import random
import sys
from pathlib import Path

from differential import due_answers
from model import Finder
from scripts import random_script

MISTAKES = []


def mistake(change):
    MISTAKES.append(change)
    return change


# Asking and fitting


@mistake
def leaves_in_what_is_not_covered(model):
    model.Catalogue.covered = lambda self, chosen: set(chosen)


@mistake
def leaves_out_what_is_not_covered_at_each_not(model):
    model.Catalogue.negated = lambda self, value: self.covered(self.kinds - value)


@mistake
def lifts_to_a_kind_whose_children_are_all_there(model):
    def covered(self, chosen):
        return {kind for kind, below in self.descents().items() if below <= chosen | {kind} and (below - {kind} or kind in chosen)}

    model.Catalogue.covered = covered


@mistake
def counts_withdrawn_kinds_into_a_not(model):
    right = model.Catalogue.withdraw

    def withdraw(self, serial):
        right(self, serial)
        self.gone = getattr(self, "gone", set()) | {serial}

    model.Catalogue.withdraw = withdraw
    model.Catalogue.negated = lambda self, value: (self.kinds | getattr(self, "gone", set())) - value
    model.Catalogue.uppermost = add_gone(model.Catalogue.uppermost)


def add_gone(uppermost):
    return lambda self, chosen: uppermost(self, chosen) | (chosen - self.kinds)


@mistake
def tells_all_covered_kinds(model):
    model.Catalogue.uppermost = model.Catalogue.covered


@mistake
def fits_only_where_all_below_fits(model):
    right = model.Catalogue.set_of
    model.Catalogue.fit = lambda self, serial, words: (
        self.check_question(words) or self.check_stands(serial) or serial in self.covered(right(self, words))
    )


@mistake
def fits_before_looking_at_the_question(model):
    model.Catalogue.fit = lambda self, serial, words: (
        self.check_stands(serial) or self.check_question(words) or serial in self.set_of(words)
    )


@mistake
def fits_serials_last(model):
    def fit(self, serial, words):
        self.check_question(words)
        chosen = self.set_of(words)
        self.check_stands(serial)
        return serial in chosen

    model.Catalogue.fit = fit


@mistake
def answers_without_the_last_name(model):
    right = model.Catalogue.uppermost
    model.Catalogue.uppermost = lambda self, chosen: set(sorted(right(self, chosen))[:40])


@mistake
def says_too_deep_early(model):
    model.MOST_ENTRIES = 31


@mistake
def says_too_deep_late(model):
    model.MOST_ENTRIES = 33


@mistake
def says_too_long_early(model):
    model.MOST_WORDS = 1023


@mistake
def says_too_long_late(model):
    model.MOST_WORDS = 1025


@mistake
def checks_the_length_before_open(model):
    def check(self, words):
        model.refuse_if(not 1 <= len(words) <= model.MOST_WORDS, 13)
        model.refuse_if(not self.closed, 12)

    model.Catalogue.check_question = check


@mistake
def forgives_low_bits(model):
    right = model.Catalogue.leaf

    def leaf(self, words, index):
        kind, low = model.taken_apart(words, index)
        return right(self, words if kind == model.NAME else [model.word(kind)], index if kind == model.NAME else 0)

    model.Catalogue.leaf = leaf


@mistake
def tells_seventeen_at_the_last_word(model):
    right = model.Catalogue.set_of

    def set_of(self, words):
        try:
            return right(self, words)
        except model.Refused as refusal:
            raise model.Refused(17, len(words) - 1) if refusal.number == 17 else refusal

    model.Catalogue.set_of = set_of


# Kinds and lines


@mistake
def stays_closed_when_a_kind_is_entered(model):
    stays_closed(model, "enter")


@mistake
def stays_closed_when_a_kind_is_withdrawn(model):
    stays_closed(model, "withdraw")


@mistake
def stays_closed_when_a_line_is_entered(model):
    stays_closed(model, "line")


@mistake
def stays_closed_when_a_line_is_withdrawn(model):
    stays_closed(model, "unline")


@mistake
def stays_closed_when_an_image_is_read(model):
    stays_closed(model, "read")


def stays_closed(model, call):
    right = getattr(model.Catalogue, call)

    def stay(self, *handed):
        closed = self.closed
        right(self, *handed)
        self.closed = closed

    setattr(model.Catalogue, call, stay)


@mistake
def opens_when_a_call_is_refused(model):
    right = model.Catalogue.enter

    def enter(self, serial):
        self.closed = False
        right(self, serial)

    model.Catalogue.enter = enter


@mistake
def opens_when_asked_to_recall(model):
    right = model.Catalogue.recall

    def recall(self, words):
        self.closed = False
        return right(self, words)

    model.Catalogue.recall = recall


@mistake
def closes_although_a_ring_stands(model):
    right = model.Catalogue.close

    def close(self):
        self.closed = True
        right(self)

    model.Catalogue.close = close


@mistake
def misses_long_rings(model):
    model.Catalogue.has_ring = lambda self: any((parent, child) in self.lines for child, parent in self.lines)


@mistake
def is_full_one_kind_early(model):
    model.PLACES = 511
    model.Catalogue.__init__.__defaults__ = (511,)


@mistake
def is_full_one_kind_late(model):
    model.Catalogue.__init__.__defaults__ = (513,)


@mistake
def is_full_one_line_early(model):
    model.MOST_LINES = 2047


@mistake
def is_full_one_line_late(model):
    model.MOST_LINES = 2049


@mistake
def says_full_before_stands_already(model):
    def enter(self, serial):
        model.check_serial(serial)
        model.refuse_if(len(self.kinds) == self.places, 4)
        model.refuse_if(serial in self.kinds, 3)
        self.kinds.add(serial)
        self.changed()

    model.Catalogue.enter = enter


@mistake
def says_full_of_lines_before_stands_already(model):
    def line(self, child, parent):
        self.check_line(child, parent)
        model.refuse_if(len(self.lines) == model.MOST_LINES, 9)
        model.refuse_if((child, parent) in self.lines, 8)
        self.lines.add((child, parent))
        self.changed()

    model.Catalogue.line = line


@mistake
def looks_at_both_serials_before_either_kind(model):
    def check(self, child, parent):
        model.check_serial(child)
        model.check_serial(parent)
        self.check_stands(child)
        self.check_stands(parent)
        model.refuse_if(child == parent, 7)

    model.Catalogue.check_line = check


@mistake
def compares_child_and_parent_first(model):
    right = model.Catalogue.check_line
    model.Catalogue.check_line = lambda self, child, parent: model.refuse_if(child == parent, 7) or right(self, child, parent)


@mistake
def withdraws_a_kind_that_is_only_a_parent(model):
    def withdraw(self, serial):
        self.check_stands(serial)
        model.refuse_if(any(serial == child for child, _ in self.lines), 6)
        self.kinds.remove(serial)
        self.lines = {line for line in self.lines if serial not in line}
        self.changed()

    model.Catalogue.withdraw = withdraw


@mistake
def takes_a_line_for_its_reverse(model):
    right = model.Catalogue.line

    def line(self, child, parent):
        self.check_line(child, parent)
        model.refuse_if((parent, child) in self.lines, 8)
        right(self, child, parent)

    model.Catalogue.line = line


@mistake
def takes_serials_of_29_bits(model):
    def check(serial, index=0):
        model.refuse_if(not 1 <= serial <= 2**28, 2, index)

    model.check_serial = check


# Kept answers


@mistake
def recalls_by_place(model):
    enter, withdraw = model.Catalogue.enter, model.Catalogue.withdraw

    def entering(self, serial):
        enter(self, serial)
        self.heirs = getattr(self, "heirs", {})
        if getattr(self, "freed", []):
            self.heirs[self.freed.pop()] = serial

    def withdrawing(self, serial):
        withdraw(self, serial)
        self.freed = getattr(self, "freed", []) + [serial]

    def recall(self, words):
        heirs = getattr(self, "heirs", {})
        names = [heirs.get(serial, serial) for serial in model.names_of_answer(words)]
        return model.answer_of({serial for serial in names if serial in self.kinds})

    model.Catalogue.enter, model.Catalogue.withdraw, model.Catalogue.recall = entering, withdrawing, recall


@mistake
def recalls_what_was_withdrawn(model):
    model.Catalogue.recall = lambda self, words: model.answer_of(model.names_of_answer(words))


@mistake
def takes_a_repeated_name(model):
    right = model.names_of_answer

    def names(words):
        return right([each for at, each in enumerate(words) if at == 0 or each != words[at - 1]])

    model.names_of_answer = names


@mistake
def takes_words_beyond_an_answer(model):
    right = model.names_of_answer
    model.names_of_answer = lambda words: right(words[: (words[0] & model.TOP_SERIAL) + 1] if words else words)


@mistake
def counts_broken_kits_as_changed(model):
    def recall_kits(self, words):
        kits = changed = 0
        for kit in model.kits_of(words):
            kits += 1
            try:
                changed += self.recall(kit) != kit
            except model.Refused:
                changed += 1
        return kits, changed

    model.Catalogue.recall_kits = recall_kits


@mistake
def lets_a_short_kit_take_the_next_words(model):
    def kits_of(words):
        at = 0
        while at < len(words):
            end = at + 1 + (words[at] & model.TOP_SERIAL if words[at] >> 28 == model.ANSWER else 0)
            yield words[at:end]
            at = end

    model.kits_of = kits_of


# Images


def image_mistake(number_told, number_due):
    """Tells one number for another in images alone."""

    def change(model):
        right = model.read_image

        def read_image(words, places):
            try:
                return right(words, places)
            except model.Refused as refusal:
                raise model.Refused(number_told, refusal.index) if refusal.number == number_due else refusal

        model.read_image = read_image

    return change


@mistake
def tells_an_unknown_kind_in_an_image_as_no_word_due(model):
    image_mistake(19, 5)(model)


@mistake
def tells_a_line_to_itself_in_an_image_as_out_of_order(model):
    image_mistake(19, 7)(model)


@mistake
def tells_a_line_too_many_in_an_image_as_out_of_order(model):
    image_mistake(19, 9)(model)


@mistake
def tells_faults_of_a_parent_at_its_child(model):
    right = model.kind_in_line

    def kind_in_line(words, index, due, kinds):
        try:
            return right(words, index, due, kinds)
        except model.Refused as refusal:
            raise model.Refused(refusal.number, index - (due == model.PARENT)) from None

    model.kind_in_line = kind_in_line


@mistake
def does_not_look_at_the_end_of_an_image(model):
    right = model.read_image

    def read_image(words, places):
        ends = [at for at, each in enumerate(words) if each >> 28 == model.END]
        if ends:
            words = words[: ends[0]] + [model.word(model.END, ends[0])]
        return right(words, places)

    model.read_image = read_image


@mistake
def takes_lines_of_an_image_in_any_order(model):
    right = model.read_image

    def read_image(words, places):
        count = words[0] & model.TOP_SERIAL if words else 0
        head, rest = words[: count + 1], words[count + 1 : -1]
        pairs = sorted((rest[at], rest[at + 1]) for at in range(0, len(rest) - 1, 2))
        if len(rest) % 2 or not words:
            return right(words, places)
        return right(head + [each for pair in pairs for each in pair] + words[-1:], places)

    model.read_image = read_image


@mistake
def writes_lines_by_parent(model):
    def image_of(kinds, lines):
        words = [model.word(model.IMAGE, len(kinds))] + [model.word(model.NAME, serial) for serial in sorted(kinds)]
        for parent, child in sorted((parent, child) for child, parent in lines):
            words += [model.word(model.CHILD, child), model.word(model.PARENT, parent)]
        return words + [model.word(model.END, len(words))]

    model.image_of = image_of


def copy_of_the_model():
    spec = importlib.util.spec_from_file_location("wrong_model", Path(__file__).with_name("model.py"))
    module = importlib.util.module_from_spec(spec)
    spec.loader.exec_module(module)
    return module


def gives_away(script, due, model):
    finder = model.Finder(model.Files(script.files))
    got = [answer for answer in map(finder.answer, script.lines) if answer is not None]
    for (_, _, expected), answer in zip(due, got):
        if expected.lines is not None or answer.lines is not None:
            if (expected.lines, expected.text) != (answer.lines, answer.text):
                return True
        elif expected.text != answer.text:
            return True
    return False


def main():
    parser = argparse.ArgumentParser(description=__doc__)
    parser.add_argument("--seed", type=int, default=1)
    parser.add_argument("--scripts", type=int, default=200)
    chosen = parser.parse_args()
    scripts = []
    for seed in range(chosen.seed, chosen.seed + chosen.scripts):
        script = random_script(random.Random(seed))
        scripts.append((script, due_answers(script, Finder)[0]))
    missed = 0
    for change in MISTAKES:
        model = copy_of_the_model()
        change(model)
        found = next((at for at, (script, due) in enumerate(scripts, 1) if gives_away(script, due, model)), None)
        missed += found is None
        print(f"{found or 'never':>6}  {change.__name__.replace('_', ' ')}")
    print(f"{len(MISTAKES)} mistakes, {missed} never found in {chosen.scripts} scripts")
    return 1 if missed else 0


if __name__ == "__main__":
    sys.exit(main())
