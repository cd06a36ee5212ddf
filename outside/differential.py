#!/usr/bin/env python3
"""Pipes random scripts into the finder, over bits and over packets, and holds every answer line against the model's."""

import random
import sys
import tempfile
from pathlib import Path

from model import ANSWER, Files, Finder, word
from program import CODES, WithoutQuestions, answers, options, run, shown
from scripts import Script, random_script

MOST_TRIES = 2000


class Difference(Exception):
    def __init__(self, where, call, due, got):
        super().__init__(where)
        self.where = where
        self.call = call
        self.due = due
        self.got = got


def due_answers(script, model):
    """Each line with the answer that is due for it, lines that are passed over left out; and the files afterwards."""
    finder = model(Files(script.files))
    due = []
    for number, line in enumerate(script.lines, 1):
        expected = finder.answer(line)
        if expected is not None:
            due.append((number, line, expected))
    return due, finder.files.contents


def compare_answers(due, got):
    for (number, line, expected), answer in zip(due, got):
        if not expected.allows(answer):
            raise Difference(f"line {number}", line, expected, answer)
    if len(due) != len(got):
        raise Difference("the number of answers", b"", len(due), len(got))


def compare_files(due, folder):
    for name, contents in due.items():
        got = Path(folder, name).read_bytes()
        if got != contents:
            raise Difference(f"file {name}", b"", contents.hex(), got.hex())
    left = {path.name for path in Path(folder).iterdir()} - set(due)
    if left:
        raise Difference("files left behind", b"", "none", sorted(left))


def without_ring(answer):
    return answer.split(" ring ")[0]


def compare(script, chosen, model):
    """Raises the first difference between the model and the finder over each code, or between the codes."""
    due, files = due_answers(script, model)
    by_code = {}
    for code in chosen.codes or CODES:
        with tempfile.TemporaryDirectory() as folder:
            for name, contents in script.files.items():
                Path(folder, name).write_bytes(contents)
            ended = run(chosen.finder, script.input(), folder, ["--code", code])
            by_code[code] = got = answers(ended.stdout)
            compare_answers(due, got)
            if ended.returncode != 0 or ended.stderr:
                raise Difference("the end", b"", "status 0, nothing said on standard error", (ended.returncode, ended.stderr))
            compare_files(files, folder)
    for (number, line, _), told in zip(due, zip(*by_code.values())):
        if len(set(map(without_ring, told))) > 1:
            raise Difference(f"line {number}, between the codes", line, *told)
    return due


def smaller(items, still_differs):
    """Leaves out items as long as the rest still differs, first many at once and then fewer."""
    size = len(items) // 2
    while size:
        at = 0
        while at < len(items):
            rest = items[:at] + items[at + size :]
            if still_differs(rest):
                items = rest
            else:
                at += size
        size //= 2
    return items


def spelled_out(line, files):
    """An image as the calls that enter its kinds and lines, which can be left out one by one; any other line as it is."""
    finder = Finder(Files(files))
    if line.split(b" ")[0] not in (b"read", b"load") or finder.answer(line).text != "ok":
        return [line]
    kinds, lines = finder.catalogue.kinds, finder.catalogue.lines
    return [b"enter %d" % serial for serial in sorted(kinds)] + [b"line %d %d" % line for line in sorted(lines)]


def counted_again(fields):
    """A kept answer whose head counts the names that are left."""
    if fields[:1] == [b"recall"] and fields[1:] and fields[1].startswith(b"7"):
        fields = fields[:1] + [b"%08X" % word(ANSWER, len(fields) - 2)] + fields[2:]
    return b" ".join(fields)


def shrunk(script, chosen, model):
    tries = 0

    def differs(lines):
        nonlocal tries
        tries += 1
        if tries > MOST_TRIES:
            return False
        try:
            compare(Script(lines, script.files), chosen, model)
        except Difference:
            return True
        return False

    lines = smaller(script.lines, differs)
    without_images = [call for line in lines for call in spelled_out(line, script.files)]
    if differs(without_images):
        lines = smaller(without_images, differs)
    for at, line in enumerate(lines):
        before, after = lines[:at], lines[at + 1 :]
        fields = smaller(line.split(b" "), lambda rest: differs(before + [counted_again(rest)] + after))
        if differs(before + [counted_again(fields)] + after):
            lines[at] = counted_again(fields)
    return Script(smaller(lines, differs), script.files)


def keep(script, seed):
    folder = Path(tempfile.mkdtemp(prefix=f"difference-{seed}-"))
    (folder / "script").write_bytes(script.input())
    for name, contents in script.files.items():
        (folder / name).write_bytes(contents)
    return folder


def report(difference, seed, script, chosen, model):
    print(f"seed {seed}, {difference.where}")
    print(f"  call    {shown(difference.call)}")
    print(f"  model   {shown(difference.due)}")
    print(f"  finder  {shown(difference.got)}")
    small = shrunk(script, chosen, model)
    print(f"shrunk to {len(small.lines)} lines, kept with its files in {keep(small, seed)}:")
    for line in small.lines:
        print("  " + shown(line, 2000))
    try:
        compare(small, chosen, model)
    except Difference as left:
        print(f"  there the model says  {shown(left.due)}")
        print(f"  and the finder says   {shown(left.got)}")


def tally(due, counts):
    for _, line, expected in due:
        call = line.split()[0].decode("utf-8", "replace")
        kind = expected.text.split()[0]
        key = (call if len(call) < 10 and kind != "error" else "no call", kind)
        counts[key] = counts.get(key, 0) + 1
        if kind == "refused":
            number = ("refused", int(expected.text.split()[1]))
            counts[number] = counts.get(number, 0) + 1


def told(counts):
    calls = sorted({call for call, _ in counts if call != "refused"})
    for call in calls:
        print(f"  {call:10}", *(f"{kind} {counts[call, kind]}" for kind in ("ok", "refused", "error") if (call, kind) in counts))
    print("  refusals  ", *(f"{number}:{count}" for (call, number), count in sorted(counts.items(), key=str) if call == "refused"))


def main():
    parser = options(__doc__)
    parser.add_argument("--seed", type=int, default=1, help="the first script's seed")
    parser.add_argument("--scripts", type=int, default=200, help="how many scripts to run")
    parser.add_argument("--small", action="store_true", help="no script with hundreds of kinds")
    chosen = parser.parse_args()
    model = WithoutQuestions if chosen.without_questions else Finder
    lines = 0
    counts = {}
    for seed in range(chosen.seed, chosen.seed + chosen.scripts):
        script = random_script(random.Random(seed), chosen.small)
        try:
            due = compare(script, chosen, model)
        except Difference as difference:
            report(difference, seed, script, chosen, model)
            return 1
        lines += len(due)
        tally(due, counts)
    print(f"{chosen.scripts} scripts, {lines} calls, over {' and '.join(chosen.codes or CODES)}: every answer is the model's")
    told(counts)
    return 0


if __name__ == "__main__":
    sys.exit(main())
