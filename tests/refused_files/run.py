#!/usr/bin/env python3
"""Refuses each call on files in turn, and looks at what the built program leaves.

    run.py [--program PATH] [--pairs N]

The program adjusts, reviews and shows a project, over outputs of another one and over none. Of each run call 1 fails, then
call 2, and so on until a run makes fewer calls: on inputs, outputs and the folder. Where a rename fails, the outputs before
it are new and its own and later ones are as they were. Where another call fails and the run ends with status 5, no output
changed, nor with status 3, where files cannot be compared. With status 0, after a failed close and for the folder, all are
new. The lines on standard error name the device and the file, and no unfinished file is left, unless its removal was
refused. A run that cannot lock the folder goes on. A run whose calls all succeed creates each output for its owner alone: where it replaces none, after an empty file
that shows the permissions and is gone. It makes each output durable before it renames the first one, and synchronises the
folder after the last rename. Over links it opens nothing for writing that is not its own. The reason of a failed rename is
told.

Then two runs with one prefix and other inputs start together, again and again: both end with status 0, all outputs are of
one of them, and no unfinished file is left. A run that is stopped while it holds the lock of the folder makes another one
wait, and a killed one does not.

Calls are counted and refused by `refusing_calls.c`, which is compiled with `cc` and stands before the C library's calls.
Prints a table. Status 0 only where all is right.
"""
import argparse
import collections
import errno
import fcntl
import os
import re
import subprocess
import sys
import tempfile
import time
from pathlib import Path

HERE = Path(__file__).resolve().parent
ROOT = HERE.parents[1]
OUTPUTS = {
    "adjust": {"heights.csv": "heights", "certificate.csv": "certificate", "report.txt": "report", "heights.gsi": "gsi"},
    "review": {"points.csv": "points", "observations.csv": "observations", "entries.csv": "entries",
               "benchmarks.csv": "reviewed benchmarks", "review.txt": "review"},
    "page": {"html": "page"},
}
INPUTS = {"new.gsi": "book 1", "new.csv": "benchmarks"}


class Wrong(Exception):
    """Something that is not allowed, in words."""


def make_inputs(folder: Path) -> None:
    """Two versions of the cellar, which name a point differently."""
    for name, made in (("marks.csv", "csv"), ("cellar.gsi", "gsi")):
        text = (ROOT / "examples/cellar" / name).read_bytes()
        (folder / f"old.{made}").write_bytes(text)
        (folder / f"new.{made}").write_bytes(text.replace(b"G1", b"H1"))


def words_of(program: str, command: str, version: str) -> list:
    return [program, command, "--benchmarks", f"{version}.csv", "--out", "own", f"{version}.gsi"]


def outputs_of(folder: Path, command: str) -> list:
    """The bytes of each output, or nothing where it is not there."""
    files = [folder / f"own.{ending}" for ending in OUTPUTS[command]]
    return [file.read_bytes() if file.exists() else None for file in files]


def put_outputs(folder: Path, command: str, texts: list) -> None:
    for ending, text in zip(OUTPUTS[command], texts):
        (folder / f"own.{ending}").unlink(missing_ok=True)
        if text is not None:
            (folder / f"own.{ending}").write_bytes(text)


def refuse(program: str, library: Path, folder: Path, command: str, number: int, error: int = errno.EIO):
    """Runs with this call refused, with this error: its status, its line, and its calls."""
    reader, writer = os.pipe()
    environment = dict(os.environ, LD_PRELOAD=str(library), REFUSE=str(number), ERROR=str(error))

    def trace_to_3() -> None:
        os.dup2(writer, 3)

    run = subprocess.Popen(words_of(program, command, "new"), cwd=folder, env=environment, stdin=subprocess.DEVNULL,
                           stdout=subprocess.PIPE, stderr=subprocess.PIPE, pass_fds=(3, writer), preexec_fn=trace_to_3)
    os.close(writer)
    with os.fdopen(reader, "rb") as trace:
        calls = trace.read().decode().splitlines()
    printed, line = run.communicate()
    if printed:
        raise Wrong(f"standard output has {printed!r}")
    return run.returncode, line.decode(), calls


# Errors of a rename, and what the second line says of them.
REASONS = {errno.EIO: "the device failed", errno.EXDEV: "on another file system", errno.EBUSY: "in use by the system", errno.EMFILE: "too many open files",
           errno.ENFILE: "too many open files", errno.ELOOP: "a link that leads nowhere", errno.EACCES: "permission denied"}


def lines_of(what: str, device: str, name: str, error: int = errno.EIO) -> str:
    """The lines on standard error after a call that failed with this error."""
    why = f": {REASONS[error]}" if error in REASONS else ""
    return f"{what} failed: {device}\n  '{name}'{why}\n"


def look(folder: Path, command: str, old: list, new: list, number: int, status: int, line: str, calls: list) -> str:
    """Looks at what the run left of which this call was refused, and says which call that was."""
    name, _, path = calls[number - 1].partition(" ")
    found = outputs_of(folder, command)
    count = next((k for k in range(len(new) + 1) if found == new[:k] + old[k:]), None)
    renames = sum(call.startswith("rename ") for call in calls[:number - 1])
    endings = list(OUTPUTS[command])
    if name == "rename":
        wanted = (5, lines_of("write", OUTPUTS[command][endings[renames]], f"own.{endings[renames]}"), renames)
    elif status == 0:
        wanted = (0, "", len(endings))
    elif path in INPUTS:
        wanted = (5, lines_of("read", INPUTS[path], path), 0)
    else:
        ending = ending_of(path, endings)
        # Where an empty file was not removed, another one cannot have its name.
        error = errno.EEXIST if name == "unlink" else errno.EIO
        wanted = (5, lines_of("write", OUTPUTS[command].get(ending), f"own.{ending}", error), 0)
    if name == "statx" and status == 3 and line.startswith("error: output own.") and " would overwrite " in line:
        wanted = (3, line, 0)
    if (status, line, count) != wanted:
        raise Wrong(f"{command} with {name} of '{path}' refused: {(status, line, count)} and not {wanted}")
    # An output that is not there is no input, whatever the system says of the input.
    needless = name == "statx" and path in INPUTS and old[0] is None
    if name not in ("close", "unlink") and path != "." and not needless and status == 0:
        raise Wrong(f"{command} with {name} of '{path}' refused ends with status 0")
    left = list(folder.glob("*unfinished*"))
    if left and name != "unlink":
        raise Wrong(f"{command} with {name} of '{path}' refused leaves {left}")
    for file in left:
        file.unlink()
    return f"{name} of the folder" if path == "." else name


def ending_of(path: str, endings: list):
    """Which output a call is about: by its name, or by the number in the name of its unfinished file."""
    unfinished = re.search(r"-([0-9]+)\.unfinished$", path)
    if unfinished:
        return endings[int(unfinished[1]) - 1]
    return next((ending for ending in endings if path.startswith(f"own.{ending}")), None)


def tell_reasons(program: str, library: Path, folder: Path) -> None:
    """The first rename fails with each error, and the second line has its reason."""
    calls = refuse(program, library, folder, "page", 0)[2]
    number = 1 + next(place for place, call in enumerate(calls) if call.startswith("rename "))
    for error in REASONS:
        answer = refuse(program, library, folder, "page", number, error)[:2]
        if answer != (5, lines_of("write", "page", "own.html", error)):
            raise Wrong(f"a rename that fails with {os.strerror(error)} is told as {answer}")
    print(f"{len(REASONS)} reasons of a failed rename")


def follow_links(program: str, library: Path, folder: Path, command: str, new: list) -> None:
    """Each output is a link to a file elsewhere: what it leads to is not opened for writing, and stays."""
    others = folder.parent / "others"
    others.mkdir(exist_ok=True)
    put_outputs(folder, command, [None for _ in OUTPUTS[command]])
    for ending in OUTPUTS[command]:
        (others / ending).write_text("another's\n")
        (folder / f"own.{ending}").symlink_to(others / ending)
    status, _, calls = refuse(program, library, folder, command, 0)
    opened = [call for call in calls if call.startswith("alter ")]
    if (status, outputs_of(folder, command)) != (0, new) or opened or any((others / ending).read_text() != "another's\n" for ending in OUTPUTS[command]):
        raise Wrong(f"{command} over links ends with {status}, and opens {opened}")
    print(f"{command:7} over links: nothing else is opened for writing")


def refuse_each(program: str, library: Path, folder: Path, command: str, old: list, new: list) -> None:
    over = "none" if old[0] is None else "outputs"
    seen = collections.Counter()
    number = 0
    while True:
        number += 1
        put_outputs(folder, command, old)
        status, line, calls = refuse(program, library, folder, command, number)
        if len(calls) < number:
            break
        seen[look(folder, command, old, new, number, status, line, calls), status] += 1
    if status != 0 or outputs_of(folder, command) != new:
        raise Wrong(f"{command} with no call refused ends with {status}")
    look_at_creation(command, calls, old)
    look_at_order(command, calls)
    for (name, status), count in sorted(seen.items()):
        print(f"{command:7} over {over:8} {name:20} status {status}: {count:4}")


def look_at_creation(command: str, calls: list, old: list) -> None:
    """Each file is created for its owner alone, where nothing has its name. What others may use before is empty, and gone."""
    created = [call.split(" ")[0] for call in calls if call.startswith(("create ", "share ", "unlink "))]
    if created != (["create"] if old[0] is not None else ["share", "unlink", "create"]) * len(old):
        raise Wrong(f"{command} creates its files as {created}")
    shared = False
    for call in calls:
        shared = call.startswith("share ") or shared and not call.startswith("unlink ")
        if shared and not call.startswith(("share ", "statx ", "close ")):
            raise Wrong(f"{command} has '{call}' while others may use the file")


def look_at_order(command: str, calls: list) -> None:
    """All outputs are synchronised before the first rename, and the folder after the last one."""
    outputs = len(OUTPUTS[command])
    renames = [place for place, call in enumerate(calls) if call.startswith("rename ")]
    files = [place for place, call in enumerate(calls) if call.startswith("fsync ") and call.endswith(".unfinished")]
    folders = [place for place, call in enumerate(calls) if call == "fsync ."]
    if (len(renames), len(files), len(folders)) != (outputs, outputs, 1) or not max(files) < min(renames) <= max(renames) < folders[0]:
        raise Wrong(f"{command} has its renames at {renames}, and synchronises files at {files}, folders at {folders}")


def start_together(program: str, folder: Path, texts: dict, pairs: int) -> None:
    for number in range(pairs):
        command = list(OUTPUTS)[number % len(OUTPUTS)]
        runs = [subprocess.Popen(words_of(program, command, version), cwd=folder) for version in ("old", "new")]
        statuses = [run.wait() for run in runs]
        found = outputs_of(folder, command)
        both = list(zip(found, texts["old", command], texts["new", command]))
        left = list(folder.glob("*unfinished*"))
        if statuses != [0, 0] or left or found not in (texts["old", command], texts["new", command]):
            raise Wrong(f"two runs of {command} at once end with {statuses}, and leave {left} or outputs of both")
    print(f"{pairs} pairs of runs at once: all outputs of one of them")


def wait_for_lock(program: str, folder: Path) -> None:
    """While another run has the lock of the folder, a run waits, and says so in the end. That of a killed run is gone."""
    words = words_of(program, "page", "new")
    lock = os.open(folder, os.O_RDONLY)
    fcntl.flock(lock, fcntl.LOCK_EX)
    given_up = subprocess.run(words, cwd=folder, stderr=subprocess.PIPE, check=False)
    waiting = subprocess.Popen(words, cwd=folder)
    time.sleep(0.5)
    is_waiting = waiting.poll() is None
    os.close(lock)
    other = subprocess.Popen([sys.executable, "-c", "import fcntl, os, time; fcntl.flock(os.open('.', 0), fcntl.LOCK_EX); print(); time.sleep(60)"],
                             cwd=folder, stdout=subprocess.PIPE)
    other.stdout.readline()
    other.kill()
    other.communicate()
    after = subprocess.run(words, cwd=folder, check=False).returncode
    found = (given_up.returncode, given_up.stderr.decode(), is_waiting, waiting.wait(), after)
    if found != (5, "write failed: page\n  'own.html': another run writes here\n", True, 0, 0) or list(folder.glob("*unfinished*")):
        raise Wrong(f"runs beside a lock end with {found}")
    print("a run waits for the lock of its folder, gives up in the end, and needs none of a killed run")


def main() -> None:
    parser = argparse.ArgumentParser(description=__doc__, formatter_class=argparse.RawDescriptionHelpFormatter)
    parser.add_argument("--program", default=str(ROOT / "crates/height_office/out/height_office"))
    parser.add_argument("--pairs", type=int, default=100)
    given = parser.parse_args()
    program = str(Path(given.program).resolve())
    with tempfile.TemporaryDirectory() as name:
        folder = Path(name) / "project"
        folder.mkdir()
        library = Path(name) / "refusing_calls.so"
        subprocess.run(["cc", "-O2", "-Wall", "-Wextra", "-shared", "-fPIC", "-o", library, HERE / "refusing_calls.c",
                        "-ldl"], check=True)
        make_inputs(folder)
        texts = {}
        for version in ("old", "new"):
            for command in OUTPUTS:
                subprocess.run(words_of(program, command, version), cwd=folder, check=True)
                texts[version, command] = outputs_of(folder, command)
        try:
            for command in OUTPUTS:
                for old in (texts["old", command], [None for _ in OUTPUTS[command]]):
                    refuse_each(program, library, folder, command, old, texts["new", command])
                follow_links(program, library, folder, command, texts["new", command])
            tell_reasons(program, library, folder)
            wait_for_lock(program, folder)
            start_together(program, folder, texts, given.pairs)
        except Wrong as wrong:
            sys.exit(str(wrong))


if __name__ == "__main__":
    main()
