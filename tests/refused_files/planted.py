#!/usr/bin/env python3
"""Plants links, pipes, devices and folders at the outputs of the built program, and looks at its system calls.

    planted.py [--program PATH]

`adjust`, `review` and `page` write into a folder of the project, into one below /dev/shm, to names in /dev/shm itself and, where this user may, to
names in /dev. At each output in turn something is planted: a link to another's file, to a link to it, to none, to itself, to a device, to
a pipe and to a folder; another name of another's file; a pipe, a socket, a folder and, where this user may make one, a device. The system calls
are listed by `tracing_calls.c`, which is compiled with `cc` and needs nothing but `ptrace`.

What is opened for writing, removed or renamed is an unfinished file, an output that is a file by its own name, or a device that is an output
by its own name below /dev/. Nothing else gets another name or other permissions. What a link leads to is as it was. A run that is refused leaves
what was planted, and no output. Then books, tables and certificates come by /dev/stdin, /dev/fd/N and pipes, and texts go to /dev/stdout,
/dev/null and pipes. Prints a table. Status 0 only where all is right.
"""
import argparse
import collections
import os
import re
import shutil
import socket
import stat
import subprocess
import sys
import tempfile
from pathlib import Path
from typing import Callable, Dict, Iterator, List, Tuple

from run import OUTPUTS, ROOT, Wrong

HERE = Path(__file__).resolve().parent
ANOTHERS = b"another's\n"
UNFINISHED = re.compile(r"\d+-\d+\.unfinished")
MARKS = ["--benchmarks", "marks.csv"]


def name_of_another(at: Path, aside: Path) -> None:
    """Another name of another's file, which is beside it if both have one file system."""
    try:
        os.link(aside / "file", at)
    except OSError:
        (at.parent / "another").write_bytes(ANOTHERS)
        os.link(at.parent / "another", at)


def make_socket(at: Path, aside: Path) -> None:
    with socket.socket(socket.AF_UNIX) as made:
        made.bind(str(at))


def link_to(name: str) -> Callable[[Path, Path], None]:
    return lambda at, aside: at.symlink_to(aside / name)


# What is planted at an output, given it and a folder with another's file, pipe and folder; and the status of the run.
PLANTS: Dict[str, Tuple[Callable[[Path, Path], None], int]] = {
    "nothing": (lambda at, aside: None, 0),
    "file": (lambda at, aside: at.write_text("old\n") and None, 0),
    "name of another's file": (name_of_another, 0),
    "link to a file": (link_to("file"), 0),
    "link to a link": (link_to("link"), 0),
    "link to none": (link_to("none"), 0),
    "link to itself": (lambda at, aside: at.symlink_to(at.name), 5),
    "link to a device": (lambda at, aside: at.symlink_to("/dev/null"), 5),
    "link to standard output": (lambda at, aside: at.symlink_to("/dev/stdout"), 5),
    "link to a pipe": (link_to("pipe"), 5),
    "link to a folder": (link_to("folder"), 5),
    "pipe": (lambda at, aside: os.mkfifo(at), 5),
    "socket": (make_socket, 5),
    "folder": (lambda at, aside: at.mkdir(), 5),
    "device": (lambda at, aside: os.mknod(at, 0o666 | stat.S_IFCHR, os.makedev(1, 3)), 5),
    "disk": (lambda at, aside: os.mknod(at, 0o666 | stat.S_IFBLK, os.makedev(7, 250)), 5),
}


def seen_of(folder: Path) -> Dict[str, Tuple]:
    """Each name below a folder: what it is, and its bytes or where it leads."""
    seen = {}
    for path in sorted(folder.rglob("*")):
        found = path.lstat()
        text = os.readlink(path) if stat.S_ISLNK(found.st_mode) else path.read_bytes() if stat.S_ISREG(found.st_mode) else None
        seen[str(path.relative_to(folder))] = (found.st_mode, found.st_ino, text)
    return seen


def traced(tracer: Path, program: str, words: List[str], folder: Path) -> Tuple[int, List[Tuple[str, Path]]]:
    """Runs a command in a folder: its status, and its calls with the paths that they name."""
    with tempfile.NamedTemporaryFile() as trace:
        run = subprocess.run([tracer, trace.name, program, *words], cwd=folder, stdin=subprocess.DEVNULL, stdout=subprocess.PIPE, stderr=subprocess.PIPE,
                             check=False)
        lines = Path(trace.name).read_text().splitlines()
    if run.stdout:
        raise Wrong(f"{words} prints {run.stdout!r}")
    return run.returncode, [(what, folder / path) for what, _, path in (line.partition(" ") for line in lines)]


def look(words: List[str], calls: List[Tuple[str, Path]], prefix: Path, outputs: List[Path], before: Dict[Path, int]) -> None:
    """Looks at each call that may change something: it is about an unfinished file, or an output that may be opened."""
    for what, path in calls:
        is_unfinished = path.parent == prefix.parent and UNFINISHED.fullmatch(path.name)
        mode = before.get(path)
        is_own = path in outputs and mode is not None and (stat.S_ISREG(mode) or stat.S_ISCHR(mode) and str(path).startswith("/dev/"))
        allowed = {"read": True, "write": is_unfinished or is_own, "remove": is_unfinished, "rename": is_unfinished or path in outputs, "change": False}
        if not allowed[what]:
            raise Wrong(f"{' '.join(words)}: {what} of '{path}'")


def plant(tracer: Path, program: str, folder: Path, aside: Path, prefix: Path, command: str, end: str, what: str) -> str:
    """Runs a command over what is planted at an output: how it ended. `skipped` where this user may not plant it."""
    make, status = PLANTS[what]
    outputs = [Path(f"{prefix}.{own}") for own in OUTPUTS[command]]
    at = Path(f"{prefix}.{end}")
    try:
        make(at, aside)
    except PermissionError:
        return "skipped"
    if what == "device" and str(at).startswith("/dev/"):
        status = 0
    others = seen_of(aside)
    before = {path: path.lstat().st_mode for path in outputs if os.path.lexists(path)}
    planted = at.lstat() if os.path.lexists(at) else None
    words = [command, *MARKS, "--out", str(prefix), "cellar.gsi"]
    found, calls = traced(tracer, program, words, folder)
    look(words, calls, prefix, outputs, before)
    now = [path for path in outputs if os.path.lexists(path)]
    if found != status or seen_of(aside) != others or any(path.name.endswith(".unfinished") for path in prefix.parent.iterdir()):
        raise Wrong(f"{' '.join(words)} over a {what} at {end} ends with {found}, and leaves {seen_of(aside)}")
    if status == 0 and (now != outputs or any(not stat.S_ISREG(path.lstat().st_mode) for path in now if path != at or what != "device")):
        raise Wrong(f"{' '.join(words)} over a {what} at {end} writes {now}")
    if status == 5 and (now != [at] or planted is None or (at.lstat().st_ino, at.lstat().st_mode) != (planted.st_ino, planted.st_mode)):
        raise Wrong(f"{' '.join(words)} over a {what} at {end} leaves {now}")
    for path in now:
        shutil.rmtree(path) if path.is_dir() and not path.is_symlink() else path.unlink()
    (prefix.parent / "another").unlink(missing_ok=True)
    return f"status {found}"


def places_in(folder: Path) -> Iterator[Tuple[str, Path, Callable[[], None]]]:
    """Prefixes of outputs, and what removes their folder."""
    (folder / "way").mkdir()
    yield "folder", folder / "way" / "own", lambda: None
    for shared in (Path("/dev/shm"), Path("/dev")):
        if os.access(shared, os.W_OK):
            if shared.name == "shm":
                below = tempfile.mkdtemp(dir=shared)
                yield "below /dev/shm", Path(below) / "own", lambda below=below: shutil.rmtree(below)
            yield f"in {shared}", Path(tempfile.mktemp(dir=shared, prefix="own-")), lambda: None


def make_aside(aside: Path) -> None:
    """What links lead to."""
    aside.mkdir()
    (aside / "file").write_bytes(ANOTHERS)
    (aside / "link").symlink_to("file")
    (aside / "folder").mkdir()
    os.mkfifo(aside / "pipe")


def plant_each(tracer: Path, program: str, folder: Path) -> None:
    seen: Dict[Tuple[str, str, str], int] = collections.Counter()
    aside = folder.parent / "aside"
    make_aside(aside)
    for place, prefix, remove in places_in(folder):
        for command, ends in OUTPUTS.items():
            for end in ends:
                for what in PLANTS:
                    seen[place, what, plant(tracer, program, folder, aside, prefix, command, end, what)] += 1
        remove()
    for (place, what, how), count in seen.items():
        print(f"{place:14} {what:24} {how}: {count:3}")


# Command lines of a shell with the program as $P, and the text that comes out: that of the first of them.
STREAMS = [
    ["$P list cellar.gsi", "$P list /dev/stdin < cellar.gsi", "$P list /dev/fd/0 < cellar.gsi", "$P list /dev/fd/7 7< cellar.gsi", "$P list <(cat cellar.gsi)",
     "cat cellar.gsi | $P list /dev/stdin", "cat cellar.gsi | $P", "$P list cellar.gsi > /dev/stdout", "$P list cellar.gsi > /dev/fd/1", "$P list cellar.gsi | cat",
     "$P list cellar.gsi > >(cat); wait $!", "$P list cellar.gsi > /dev/null; $P list cellar.gsi"],
    ["$P check --benchmarks marks.csv --certificate cellar.certificate.csv cellar.gsi",
     "$P check --benchmarks <(cat marks.csv) --certificate <(cat cellar.certificate.csv) <(cat cellar.gsi)",
     "$P check --benchmarks /dev/stdin --certificate /dev/fd/8 /dev/fd/9 < marks.csv 8< cellar.certificate.csv 9< cellar.gsi"],
    ["$P adjust --benchmarks marks.csv --out streamed cellar.gsi; cat streamed.*",
     "$P adjust --benchmarks <(cat marks.csv) --out streamed <(cat cellar.gsi) > /dev/null; cat streamed.*"],
]


def look_at_streams(program: str, folder: Path) -> None:
    for first, *others in STREAMS:
        texts = {words: subprocess.run(["bash", "-c", words], cwd=folder, env=dict(os.environ, P=program), stdin=subprocess.DEVNULL, stdout=subprocess.PIPE,
                                       stderr=subprocess.STDOUT, check=False).stdout for words in [first, *others]}
        for words, text in texts.items():
            if not text or text != texts[first]:
                raise Wrong(f"{words}: prints {text!r} and not {texts[first]!r}")
    print(f"{sum(map(len, STREAMS))} command lines over /dev/stdin, /dev/stdout, /dev/null, /dev/fd/N and pipes")


def main() -> None:
    parser = argparse.ArgumentParser(description=__doc__, formatter_class=argparse.RawDescriptionHelpFormatter)
    parser.add_argument("--program", default=str(ROOT / "crates/height_office/out/height_office"))
    program = str(Path(parser.parse_args().program).resolve())
    with tempfile.TemporaryDirectory() as name:
        folder = Path(name) / "project"
        shutil.copytree(ROOT / "examples" / "cellar", folder)
        tracer = Path(name) / "tracing_calls"
        subprocess.run(["cc", "-O2", "-Wall", "-Wextra", "-o", tracer, HERE / "tracing_calls.c"], check=True)
        try:
            plant_each(tracer, program, folder)
            look_at_streams(program, folder)
        except Wrong as wrong:
            sys.exit(str(wrong))


if __name__ == "__main__":
    main()
