"""The program that tests run: built, unless another is named."""

import argparse
from pathlib import Path

ROOT = Path(__file__).resolve().parents[1]
DEFAULT_PROGRAM = ROOT / "crates" / "height_office" / "out" / "height_office"


def parser_of(purpose: str) -> argparse.ArgumentParser:
    """A parser of arguments with `--program`; the purpose is the text of the script."""
    parser = argparse.ArgumentParser(description=purpose, formatter_class=argparse.RawDescriptionHelpFormatter)
    parser.add_argument("--program", type=lambda name: Path(name).resolve(), default=DEFAULT_PROGRAM, help="the program, if not the built one")
    return parser
