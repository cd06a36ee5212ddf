"""Runs the program `finder` on lines of bytes and gives back its answer lines."""

import argparse
import os
import subprocess
from pathlib import Path

from model import Finder, NoCall

FINDER = Path(__file__).resolve().parent.parent / "crates" / "finder" / "out" / "finder"
CODES = ["bits", "packets"]
LONGEST_RUN = 300


class WithoutQuestions(Finder):
    """A finder that answers `error` to asking and fitting, as one does that does not have them yet."""

    def ask(self, fields):
        raise NoCall("not built")

    def fit(self, fields):
        raise NoCall("not built")


def options(description):
    parser = argparse.ArgumentParser(description=description)
    parser.add_argument("--finder", type=os.path.abspath, default=FINDER, help="the program to run")
    parser.add_argument("--code", choices=CODES, action="append", dest="codes", help="one code alone; otherwise both")
    parser.add_argument("--without-questions", action="store_true", help="for a finder that has no ask and no fit")
    return parser


def run(finder, script, folder, arguments=(), **more):
    """Runs a script to its end. Where it does not end in time, subprocess.TimeoutExpired is raised."""
    return subprocess.run([finder, *arguments], input=script, cwd=folder, capture_output=True, timeout=LONGEST_RUN, **more)


def answers(output):
    """The answer lines; lines for people are left out."""
    lines = output.decode("utf-8", "backslashreplace").split("\n")
    return [line for line in lines if line and not line.startswith("#")]


def shown(text, most=300):
    text = text.decode("utf-8", "backslashreplace") if isinstance(text, bytes) else str(text)
    return text if len(text) <= most else f"{text[:most]}… ({len(text)} characters)"


