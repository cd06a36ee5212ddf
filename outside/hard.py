#!/usr/bin/env python3
"""Tries to break the finder: every line gets one answer whatever its bytes, files that fail harm nothing, and the program ends.

Each case holds the finder to what is due for each line, where a line's rule decides it, and otherwise to one answer for each line.
"""

import os
import resource
import shutil
import signal
import subprocess
import sys
import tempfile
from pathlib import Path

from model import image_of, in_file
from program import CODES, answers, options, run, shown

CLUTCH = ({10, 20, 30, 40, 50}, {(20, 10), (30, 10), (50, 20), (50, 40)})
CLUTCH_FILE = in_file(image_of(*CLUTCH))
NOBODY = 65534
LONGEST_CASE = 120

CASES = []


def case(check):
    CASES.append(check)
    return check


class Broken(Exception):
    pass


def hold(condition, saying):
    if not condition:
        raise Broken(saying)


class Place:
    """A folder of its own with a copy of the finder that anyone may run, and the calls on it that the cases need."""

    def __init__(self, folder, finder, code):
        self.folder = Path(folder)
        self.finder = self.folder / "finder"
        self.code = code
        shutil.copyfile(finder, self.finder)
        self.finder.chmod(0o755)
        self.folder.chmod(0o777)
        self.put("clutch.img", CLUTCH_FILE)

    def put(self, name, contents):
        (self.folder / name).write_bytes(contents)

    def get(self, name):
        return (self.folder / name).read_bytes()

    def run(self, script, arguments=(), **more):
        return run(self.finder, script, self.folder, ["--code", self.code, *arguments], **more)

    def told(self, script, **more):
        """The answers to a script, after which the program ended with status 0 and silently."""
        ended = self.run(script, **more)
        hold(ended.returncode == 0, f"status {ended.returncode}: {shown(ended.stderr)}")
        hold(not ended.stderr, f"standard error: {shown(ended.stderr)}")
        return answers(ended.stdout)

    def expect(self, script, due, **more):
        """Answers that begin as told."""
        got = self.told(script, **more)
        right = len(got) == len(due) and all(answer.startswith(start) for answer, start in zip(got, due))
        hold(right, f"due {due}, got {[shown(answer, 80) for answer in got]}")

    def refuses_to_start(self, *arguments, saying="error "):
        """One line that says why, status 1, and no call served."""
        ended = self.run(b"write\n", arguments)
        got = answers(ended.stdout)
        hold(ended.returncode == 1, f"{shown(arguments)}: status {ended.returncode}")
        hold(len(got) == 1 and got[0].startswith(saying), f"{shown(arguments)}: {got}")


# Lines


@case
def nothing_at_all(place):
    place.expect(b"", [])


@case
def blank_lines_and_remarks(place):
    place.expect(b"\n   \n\t\n\r\n# a remark\n#\nwrite\n", ["ok 80000000 F0000001"])


@case
def no_newline_at_the_end(place):
    place.expect(b"enter 5\nwrite", ["ok", "ok 80000001 10000005 F0000002"])


@case
def carriage_returns(place):
    place.expect(b"enter 5\r\nread\r\nwrite\r\n", ["ok", "refused 18 at 0 by image", "ok 80000001 10000005 F0000002"])


@case
def every_byte_alone_and_in_a_field(place):
    passed_over = b" \t\r\n#"
    bytes_told = [value for value in range(256) if value not in passed_over]
    lines = [bytes([value]) for value in bytes_told] + [b"enter 5" + bytes([value]) for value in bytes_told if not chr(value).isdigit()]
    got = place.told(b"\n".join(lines) + b"\nwrite\n")
    hold(len(got) == len(lines) + 1, f"{len(lines) + 1} lines, {len(got)} answers")
    hold(all(answer.startswith("error ") for answer in got[:-1]), "a call out of odd bytes")
    hold(got[-1] == "ok 80000000 F0000001", got[-1])


@case
def bytes_that_are_no_text(place):
    place.expect(b"\xff\xfe\n\xc3\nenter \xed\xa0\x80\n\xf4\x90\x80\x80 5\nwrite\n", ["error "] * 4 + ["ok "])


@case
def zero_bytes(place):
    place.expect(b"\0\nenter\0 5\nenter 5\0\nwrite\0\nload clutch.img\0\nwrite\n", ["error "] * 5 + ["ok 80000000 "])


@case
def random_bytes(place):
    source = bytes((at * at * 31 + at * 7 + (at >> 3)) % 256 for at in range(200_000))
    lines = [b"x" + line for line in source.split(b"\n")]
    got = place.told(b"\n".join(lines) + b"\nwrite\n")
    hold(len(got) == len(lines) + 1, f"{len(lines) + 1} lines, {len(got)} answers")


@case
def a_line_of_a_million_characters(place):
    million = 1_000_000
    lines = [
        (b"x" * million, "error "),
        (b"enter " + b"9" * million, "error "),
        (b"enter " + b" " * million + b"5", "ok"),
        (b" " * million, None),
        (b"#" * million, None),
        (b"load " + b"f" * million, "error "),
        (b"ask " + b"1" * million, "error "),
        (b"recall " + b"10000005 " * (million // 9), "refused 20 at 0 by answer"),
        (b"read " + b"80000000 " * (million // 9), "refused 18 at 0 by image"),
        (b"write", "ok 80000001 10000005 F0000002"),
    ]
    place.expect(b"\n".join(line for line, _ in lines) + b"\n", [due for _, due in lines if due])


@case
def an_answer_of_a_hundred_thousand_names(place):
    names = b" ".join(b"%08X" % (0x10000000 + serial) for serial in range(1, 100_001))
    place.expect(b"enter 70000\nrecall %08X %s\n" % (0x70000000 + 100_000, names), ["ok", "ok 70000001 10011170"])


@case
def long_numbers(place):
    numbers = [b"9" * 30, b"0" * 30, b"0" * 29 + b"7", b"4294967295", b"4294967296", b"18446744073709551616", b"18446744073709551617"]
    script = b"".join(b"enter %s\n" % number for number in numbers) + b"write\n"
    due = ["error ", "refused 2 ", "ok", "refused 2 ", "error ", "error ", "error ", "ok 80000001 10000007 F0000002"]
    place.expect(script, due)


@case
def heads_that_count_far_too_much(place):
    place.expect(
        b"recall 7FFFFFFF\nrecall 7FFFFFFF 10000001\nread 8FFFFFFF\nread 80000200\nread 80000201\nread 80000000 FFFFFFFF\nread 80000000\n",
        [
            "refused 20 at 1 by answer",
            "refused 20 at 2 by answer",
            "refused 4 at 0 by kind",
            "refused 19 at 1 by image",
            "refused 4 at 0 by kind",
            "refused 19 at 1 by image",
            "refused 19 at 1 by image",
        ],
    )


@case
def many_lines(place):
    got = place.told(b"enter 5\nwithdraw 5\n" * 50_000)
    hold(got == ["ok"] * 100_000, f"{len(got)} answers, {sum(answer != 'ok' for answer in got)} not ok")


# Files


@case
def files_that_cannot_be_read(place):
    (place.folder / "folder").mkdir()
    os.mkfifo(place.folder / "unused-pipe")
    place.put("cut.img", CLUTCH_FILE[:-1])
    place.put("empty", b"")
    os.symlink("loop", place.folder / "loop")
    script = (
        b"load folder\nkits folder\nload none\nload none/none\nload clutch.img/none\nload cut.img\nkits cut.img\nload loop\nload empty\nkits empty\nwrite\n"
        b"load ./clutch.img\nload folder/../clutch.img\n"
    )
    due = ["error "] * 8 + ["refused 19 at 0 by image", "ok 0 0", "ok 80000000 F0000001", "ok", "refused 18 at 0 by image"]
    place.expect(script, due)


@case
def an_image_cut_anywhere(place):
    """Each beginning of a sound image is refused or an error and leaves the catalogue empty; the whole is read."""
    script = b""
    for length in range(len(CLUTCH_FILE) + 1):
        place.put(f"cut{length}", CLUTCH_FILE[:length])
        script += b"load cut%d\n" % length
    due = ["error " if length % 4 else f"refused 19 at {length // 4} by image" for length in range(len(CLUTCH_FILE))]
    place.expect(script, due + ["ok"])


@case
def an_image_with_a_word_too_many(place):
    place.put("long", CLUTCH_FILE + bytes(4))
    place.put("longer", CLUTCH_FILE + bytes(3))
    place.expect(b"load long\nload longer\nwrite\n", ["refused 19 at 15 by image", "error ", "ok 80000000 F0000001"])


@case
def a_file_of_a_million_words(place):
    place.put("zeros", bytes(4_000_000))
    place.put("heads", (b"\x70\0\0\0") * 1_000_000)
    place.expect(b"load zeros\nkits zeros\nkits heads\n", ["refused 19 at 0 by image", "ok 1 0", "ok 1000000 0"])


@case
def a_file_that_may_not_be_read(place):
    place.put("hidden", CLUTCH_FILE)
    (place.folder / "hidden").chmod(0)
    place.expect(b"load hidden\nkits hidden\nsave hidden\nload hidden\n", ["error ", "error ", "ok", "ok"], **as_nobody())


@case
def a_save_goes_over_a_file(place):
    place.put("kept", b"old contents, longer than what comes instead")
    place.expect(b"enter 5\nsave kept\nwithdraw 5\nload kept\nwrite\n", ["ok"] * 5)
    hold(place.get("kept") == bytes.fromhex("8000000110000005F0000002"), place.get("kept"))
    hold(not (place.folder / "kept.tmp").exists(), "kept.tmp is left behind")


@case
def a_save_where_nothing_may_be_written(place):
    shut = place.folder / "shut"
    shut.mkdir()
    (shut / "kept").write_bytes(CLUTCH_FILE)
    shut.chmod(0o555)
    script = b"enter 5\nsave shut/kept\nsave shut/new\nsave none/new\nsave shut\nsave .\nsave /proc/new\nwrite\n"
    place.expect(script, ["ok"] + ["error "] * 6 + ["ok 80000001 "], **as_nobody())
    hold((shut / "kept").read_bytes() == CLUTCH_FILE, "the old file is not whole")
    hold([path.name for path in shut.iterdir()] == ["kept"], "something is left behind")


@case
def a_save_on_a_full_disk(place):
    """The device that is always full stands where the new file is written first."""
    place.put("kept", CLUTCH_FILE)
    os.symlink("/dev/full", place.folder / "kept.tmp")
    got = place.told(b"enter 5\nsave kept\nwrite\n")
    hold(got[0] == "ok" and got[2].startswith("ok 80000001 "), got)
    if got[1] == "ok":
        hold(place.get("kept") == bytes.fromhex("8000000110000005F0000002"), "saved, but not there")
    else:
        hold(got[1].startswith("error "), got[1])
        hold(not (place.folder / "kept").is_symlink() and place.get("kept") == CLUTCH_FILE, "the old file is not whole")


@case
def a_save_that_grows_too_large(place):
    """The file may have 1,000 bytes, which an image of 300 kinds exceeds."""
    place.put("kept", CLUTCH_FILE)

    def limit():
        signal.signal(signal.SIGXFSZ, signal.SIG_IGN)
        resource.setrlimit(resource.RLIMIT_FSIZE, (1000, 1000))

    enters = b"".join(b"enter %d\n" % serial for serial in range(1, 301))
    place.expect(enters + b"save kept\nsave new\nwrite\n", ["ok"] * 300 + ["error ", "error ", "ok 8000012C "], preexec_fn=limit)
    hold(place.get("kept") == CLUTCH_FILE, "the old file is not whole")
    hold(not (place.folder / "new").exists(), "a file that was never whole is there")


@case
def a_save_with_a_folder_in_its_way(place):
    place.put("kept", CLUTCH_FILE)
    (place.folder / "kept.tmp").mkdir()
    place.expect(b"enter 5\nsave kept\nsave kept.tmp\nwrite\n", ["ok", "error ", "error ", "ok 80000001 "])
    hold(place.get("kept") == CLUTCH_FILE, "the old file is not whole")


@case
def a_save_under_a_name_with_a_zero_byte(place):
    place.put("kept", CLUTCH_FILE)
    place.expect(b"enter 5\nsave kept\0\nsave kept\0.img\n", ["ok", "error ", "error "])
    hold(place.get("kept") == CLUTCH_FILE, "the old file is not whole")


@case
def a_save_under_the_longest_name(place):
    """A name of 255 bytes leaves no room for what is put behind it while it is written."""
    longest = "n" * 255
    place.put(longest, CLUTCH_FILE)
    got = place.told(b"enter 5\nsave %s\n" % longest.encode())
    hold(got[1].startswith("error ") or place.get(longest) != CLUTCH_FILE, "told as saved, and not saved")


@case
def a_file_without_an_end(place):
    """With little memory, so that it is known soon."""

    def limit():
        resource.setrlimit(resource.RLIMIT_AS, (400_000_000, 400_000_000))

    place.expect(b"load /dev/zero\nkits /dev/zero\nwrite\n", ["error ", "error ", "ok 80000000 F0000001"], preexec_fn=limit)


@case
def a_save_over_a_link(place):
    place.put("old", CLUTCH_FILE)
    os.symlink("old", place.folder / "link")
    place.expect(b"enter 5\nsave link\nwithdraw 5\nload link\nwrite\n", ["ok"] * 4 + ["ok 80000001 10000005 F0000002"])


# Starts


@case
def starts_with_an_image(place):
    ended = place.run(b"write\n", ["clutch.img"])
    due = ["ok " + " ".join(CLUTCH_FILE[at : at + 4].hex().upper() for at in range(0, len(CLUTCH_FILE), 4))]
    hold(ended.returncode == 0 and answers(ended.stdout) == due, answers(ended.stdout))


@case
def starts_that_are_wrong(place):
    place.put("cut.img", CLUTCH_FILE[:-1])
    place.put("short.img", CLUTCH_FILE[:-4])
    (place.folder / "folder").mkdir()
    place.refuses_to_start("none.img")
    place.refuses_to_start("folder")
    place.refuses_to_start("cut.img")
    place.refuses_to_start("short.img", saying="refused 19 at 14 by image")
    place.refuses_to_start("")
    place.refuses_to_start("clutch.img", "clutch.img")
    place.refuses_to_start("--code")
    place.refuses_to_start("--code", "trits")
    place.refuses_to_start("--code", "")
    place.refuses_to_start("--bits")
    place.refuses_to_start("-")
    place.refuses_to_start(b"\xff.img")
    place.refuses_to_start("x" * 100_000)


# Ends


@case
def a_reader_that_leaves_after_one_line(place):
    """As `finder | head -1`, with more answers to write than a pipe holds."""
    running = subprocess.Popen([place.finder], stdin=subprocess.PIPE, stdout=subprocess.PIPE, stderr=subprocess.DEVNULL)
    running.stdin.write(b"write\n")
    running.stdin.flush()
    running.stdout.readline()
    running.stdout.close()
    try:
        running.stdin.write(b"write\n" * 200_000)
        running.stdin.close()
    except BrokenPipeError:
        pass
    hold(ends(running), "it runs on without a reader")


@case
def an_output_that_is_full(place):
    with open("/dev/full", "wb") as full:
        running = subprocess.Popen([place.finder], stdin=subprocess.PIPE, stdout=full, stderr=subprocess.DEVNULL)
        try:
            running.communicate(b"write\n" * 1000, timeout=LONGEST_CASE / 2)
        except subprocess.TimeoutExpired:
            running.kill()
            raise Broken("it runs on with nowhere to write") from None


@case
def an_input_that_is_a_folder(place):
    folder = os.open(place.folder, os.O_RDONLY)
    running = subprocess.Popen([place.finder], stdin=folder, stdout=subprocess.DEVNULL, stderr=subprocess.DEVNULL)
    os.close(folder)
    hold(ends(running), "it runs on with a folder as its input")


@case
def an_input_that_is_closed(place):
    running = subprocess.Popen([place.finder], preexec_fn=lambda: os.close(0), stdout=subprocess.DEVNULL, stderr=subprocess.DEVNULL)
    hold(ends(running), "it runs on without an input")


@case
def answers_come_at_once(place):
    """The next line is given only after the answer to the one before has come."""
    running = subprocess.Popen([place.finder], stdin=subprocess.PIPE, stdout=subprocess.PIPE)
    for call, due in [(b"enter 5", b"ok"), (b"close", b"ok"), (b"nonsense", b"error "), (b"enter 5", b"refused 3 ")]:
        running.stdin.write(call + b"\n")
        running.stdin.flush()
        got = b"#"
        while got.startswith(b"#"):
            got = running.stdout.readline()
        hold(got.startswith(due), f"{call}: {got}")
    running.stdin.close()
    running.stdout.close()
    hold(ends(running) and running.returncode == 0, "it does not end with its input")


def ends(running):
    try:
        running.wait(timeout=LONGEST_CASE / 2)
        return True
    except subprocess.TimeoutExpired:
        running.kill()
        return False


def too_long(*_):
    raise Broken("it does not end in time")


def as_nobody():
    """Root may read and write anything, so the cases on permissions run as nobody."""
    return {"user": NOBODY, "group": NOBODY, "extra_groups": []} if os.geteuid() == 0 else {}


def main():
    chosen = options(__doc__).parse_args()
    broken = 0
    signal.signal(signal.SIGALRM, too_long)
    for code in chosen.codes or CODES:
        for check in CASES:
            with tempfile.TemporaryDirectory() as folder:
                try:
                    signal.alarm(LONGEST_CASE)
                    check(Place(folder, chosen.finder, code))
                    signal.alarm(0)
                except (Broken, subprocess.TimeoutExpired) as saying:
                    broken += 1
                    print(f"{code}, {check.__name__.replace('_', ' ')}: {saying}")
    print(f"{len(CASES)} cases over {' and '.join(chosen.codes or CODES)}, {broken} broken")
    return 1 if broken else 0


if __name__ == "__main__":
    sys.exit(main())
