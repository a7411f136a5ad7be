#!/usr/bin/env python3
"""Runs the program on command lines and inputs that fail, and compares the status, the first line on standard error, standard output and files.

usage: run.py [--program PROGRAM] [--only TEXT]

The tables are by subject: `command_lines`, `inputs`, `streams`, `outputs`. Each case has a copy of examples/cellar for itself.
"""
import itertools
import re
import shutil
import sys
from pathlib import Path
from typing import Iterator

sys.path.insert(0, str(Path(__file__).resolve().parents[1]))

from program import ROOT
from rows import Case, run_tables

import command_lines
import inputs
import outputs
import streams


def make_folder(folder: Path) -> None:
    """What the cases read, beside what each makes for itself."""
    shutil.copytree(ROOT / "examples" / "cellar", folder, dirs_exist_ok=True)
    (folder / "folder").mkdir()
    certificate = (folder / "cellar.certificate.csv").read_text()
    (folder / "wrong.certificate.csv").write_text(re.sub("^Z,cost,.*", "Z,cost,1", certificate, flags=re.MULTILINE))
    (folder / "other.csv").write_text(re.sub("^G1,", "G9,", (folder / "marks.csv").read_text(), flags=re.MULTILINE))
    (folder / "differences.csv").write_text("from,to,difference\nA,B,1.5\nA,C,-0.00001\n")
    (folder / "factors.csv").write_text("from,to,weight\nG1,G2,2\n")
    (folder / "changes.csv").write_text("line,word,value\n")


def cases() -> Iterator[Case]:
    return itertools.chain(*(table.cases() for table in (command_lines, inputs, outputs, streams)))


if __name__ == "__main__":
    sys.exit(run_tables("statuses", __doc__, make_folder, cases()))
