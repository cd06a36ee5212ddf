#!/usr/bin/env python3
"""Cases whose answers were known before there was a finder: two published taxonomies with their codes, and the rules' worked cases.

The expected answers are written out here. The model is held to them as well as the finder.
"""

import sys
import tempfile

from model import ALL, AND, NAME, NOT, NOTHING, OR, Expected, Finder, answer_of, image_of, word, written
from program import CODES, answers, options, run, shown

OPERATORS = {"and": word(AND), "or": word(OR), "not": word(NOT), "all": word(ALL), "nothing": word(NOTHING)}

# Each kind with the code published for it: the digit at index i from the right tells whether the kind of index i descends from it.
TWELVE_KINDS = {
    "A": "000000000001",
    "D": "000000001011",
    "C": "000000000101",
    "B": "000000001000",
    "E": "000000011000",
    "F": "000000101111",
    "H": "000001101111",
    "G": "000010011011",
    "J": "000110111111",
    "I": "001010111111",
    "K": "011111111111",
    "L": "101110111111",
}
NINE_ANIMALS = {
    "bird": "011000001",
    "animal": "111111111",
    "carnivore": "100110100",
    "pet": "110101000",
    "canid": "100110000",
    "dog": "100100000",
    "ostrich": "001000000",
    "canary": "010000000",
    "poodle": "100000000",
}

# A question, operators after their operands, and the kinds of its answer. The first of each taxonomy are published with it.
TWELVE_QUESTIONS = {
    "F G and": "D",
    "I J and": "F G",
    "K L and": "I J",
    "F G or": "F G",
    "I not": "",
    "A not": "E",
    "B not": "C",
    "all": "K L",
    "C E or": "C E",
    "F A not and": "B",
    "G C not and": "E",
    "D not not": "D",
}
NINE_QUESTIONS = {
    "canid not": "bird",
    "pet bird and": "canary",
    "pet canid and": "dog",
    "pet carnivore not and": "canary",
    "carnivore not pet not and": "ostrich",
    "bird canid or": "bird canid",
    "animal": "animal",
    "bird not not": "bird",
    "dog bird or not": "",
    "pet not": "ostrich",
    "ostrich canary or": "ostrich canary",
}

CLUTCH = "80000005 1000000A 10000014 1000001E 10000028 10000032 90000014 A000000A 9000001E A000000A 90000032 A0000014 90000032 A0000028 F000000E"
CLUTCH_CASES = [
    (f"read {CLUTCH}", "ok"),
    ("write", f"ok {CLUTCH}"),
    ("ask 1000000A", "refused 12 at 0 by question"),
    ("fit 10 1000000A", "refused 12 at 0 by question"),
    ("close", "ok"),
    ("ask 1000000A 10000028 20000000", "ok 70000001 10000032"),
    ("ask 1000000A 10000028 30000000", "ok 70000002 1000000A 10000028"),
    ("ask 50000000", "ok 70000002 1000000A 10000028"),
    ("ask 10000014 40000000", "ok 70000001 1000001E"),
    ("ask 10000014 40000000 40000000", "ok 70000001 10000014"),
    ("ask 10000014 1000001E 30000000", "ok 70000002 10000014 1000001E"),
    ("ask 1000000A 10000014 40000000 20000000", "ok 70000001 1000001E"),
    ("ask 10000014 1000001E 20000000", "ok 70000000"),
    ("ask 60000000", "ok 70000000"),
    ("fit 10 1000000A 10000014 40000000 20000000", "ok yes"),
    ("fit 20 1000000A 10000014 40000000 20000000", "ok no"),
    ("ask 10000063", "refused 5 at 0 by kind"),
    ("ask 20000000", "refused 16 at 0 by question"),
    ("ask 1000000A 10000014", "refused 17 at 0 by question"),
    ("ask " + "1000000A " * 32 + "20000000 " * 31, "ok 70000001 1000000A"),
    ("ask " + "1000000A " * 33, "refused 15 at 32 by question"),
    ("ask 1000001E" + " 40000000" * 1023, "ok 70000002 10000014 10000028"),
    ("ask 1000001E" + " 40000000" * 1024, "refused 13 at 0 by question"),
    ("ask", "refused 13 at 0 by question"),
    ("fit 0", "refused 13 at 0 by question"),
    ("fit 0 20000000", "refused 2 at 0 by serial"),
    ("fit 99 20000000", "refused 5 at 0 by kind"),
    ("fit 10 20000000", "refused 16 at 0 by question"),
    ("ask 50000001", "refused 14 at 0 by question"),
    ("ask 1000000A 70000001 10000000", "refused 14 at 1 by question"),
    ("ask 10000000", "refused 2 at 0 by serial"),
    ("withdraw 99", "refused 5 at 0 by kind"),
    ("ask 10000032", "ok 70000001 10000032"),
    ("line 10 50", "ok"),
    ("ask 10000032", "refused 12 at 0 by question"),
    ("unline 10 50", "ok"),
    ("recall 70000001 10000032", "ok 70000001 10000032"),
    ("unline 50 20", "ok"),
    ("unline 50 40", "ok"),
    ("withdraw 50", "ok"),
    ("enter 60", "ok"),
    ("recall 70000001 10000032", "ok 70000000"),
    ("enter 50", "ok"),
    ("recall 70000001 10000032", "ok 70000001 10000032"),
]


def lines_from_codes(codes):
    """Lines between two kinds with no third between them; a kind's serial is its index, counted from one."""
    names = list(codes)
    below = {
        at: {other for other in range(len(names)) if codes[name][-1 - other] == "1"} - {at} for at, name in enumerate(names)
    }
    return {
        (low + 1, top + 1) for top in below for low in below[top] if not any(low in below[between] for between in below[top])
    }


def words_of(question, serials):
    return written(OPERATORS.get(item) or word(NAME, serials[item]) for item in question.split())


def cases_of(codes, questions):
    serials = {name: at for at, name in enumerate(codes, 1)}
    cases = [("read " + written(image_of(set(serials.values()), lines_from_codes(codes))), "ok"), ("close", "ok")]
    for name, serial in serials.items():
        cases.append((f"ask {words_of(name, serials)}", "ok " + written(answer_of([serial]))))
        for other in serials.values():
            verdict = "ok yes" if codes[name][-other] == "1" else "ok no"
            cases.append((f"fit {other} {words_of(name, serials)}", verdict))
    for question, kinds in questions.items():
        due = answer_of([serials[name] for name in kinds.split()])
        cases.append((f"ask {words_of(question, serials)}", "ok " + written(due)))
    return cases


TABLES = {
    "a published taxonomy of twelve kinds": cases_of(TWELVE_KINDS, TWELVE_QUESTIONS),
    "a published taxonomy of nine animals": cases_of(NINE_ANIMALS, NINE_QUESTIONS),
    "the clutch catalogue": CLUTCH_CASES,
}


def rings_of_the_clutch():
    """The ring told may start anywhere: three answers are right."""
    names = ["1000000A", "10000032", "10000014"]
    return [" ".join(["refused 11 at 0 by closing ring B0000003"] + names[at:] + names[:at]) for at in range(3)]


def model_answers(calls):
    finder = Finder()
    return [finder.answer(call.encode()).text for call in calls]


def finder_answers(calls, chosen, code):
    script = "".join(call + "\n" for call in calls).encode()
    with tempfile.TemporaryDirectory() as folder:
        return answers(run(chosen.finder, script, folder, ["--code", code]).stdout)


def differences(cases, got, without_questions):
    if len(got) != len(cases):
        yield f"{len(cases)} answers are due, {len(got)} came"
    for (call, due), answer in zip(cases, got):
        if without_questions and call.split()[0] in ("ask", "fit"):
            due = "error"
        if not Expected(due).allows(answer):
            yield f"{shown(call)}: {due} is due, {shown(answer)} came"


def main():
    chosen = options(__doc__).parse_args()
    wrong = 0

    def hold(label, cases, got, without_questions=False):
        nonlocal wrong
        found = list(differences(cases, got, without_questions))
        wrong += len(found)
        print(f"{label}: {len(cases)} cases, {len(found)} differences")
        for each in found:
            print("  " + each)

    for label, cases in TABLES.items():
        calls = [call for call, _ in cases]
        hold(f"{label}, model", cases, model_answers(calls))
        for code in chosen.codes or CODES:
            hold(f"{label}, {code}", cases, finder_answers(calls, chosen, code), chosen.without_questions)

    for code in chosen.codes or CODES:
        *_, ring = finder_answers([f"read {CLUTCH}", "line 10 50", "close"], chosen, code)
        if ring not in rings_of_the_clutch():
            wrong += 1
            print(f"the clutch catalogue's ring, {code}: {ring}")
    return 1 if wrong else 0


if __name__ == "__main__":
    sys.exit(main())
