"""Outputs that cannot be written, that lie over files, and that would overwrite an input."""

import itertools
import os
import shutil
import stat
import subprocess
import tempfile
import unittest
from pathlib import Path
from typing import Iterator, List, Optional

from rows import Case, Words, texts_of

MARKS = "--benchmarks marks.csv"
# How the name of each output of a command ends, and what the program calls it.
OUTPUTS = {
    "adjust": {"heights.csv": "heights", "certificate.csv": "certificate", "report.txt": "report", "heights.gsi": "gsi"},
    "review": {"points.csv": "points", "observations.csv": "observations", "entries.csv": "entries", "benchmarks.csv": "reviewed benchmarks",
               "review.txt": "review"},
    "page": {"html": "page"},
}
# A folder below /dev to which all may write.
SHARED = Path("/dev/shm")
IS_ROOT = os.getuid() == 0


def adjust(prefix: str, book: str = "cellar.gsi") -> List[str]:
    return ["adjust", *MARKS.split(), "--out", prefix, book]


class Unwritable(Case):
    """The name of an output, over outputs of an earlier run, leads to a device, to a pipe that nobody reads, to a folder or to itself, or
    was typed below /dev and leads to a device or a pipe there. No output changes."""

    def __init__(self, command: str, end: str, what: str) -> None:
        super().__init__()
        self.title, self.command, self.end, self.what = f"{command} with a {what} at {end}", command, end, what

    def runTest(self) -> None:
        way = self.folder / "way"
        if self.what.startswith("shared"):
            way = Path(shared_folder(self)) / "way"
        way.mkdir()
        for other in OUTPUTS[self.command]:
            if other != self.end:
                (way / f"own.{other}").write_text("old\n")
        at = way / f"own.{self.end}"
        if self.what.endswith("pipe"):
            os.mkfifo(at)
        elif self.what == "folder":
            at.mkdir()
        else:
            at.symlink_to(at.name if self.what == "loop" else "/dev/null")
        before, kind = texts_of(way), os.lstat(at).st_mode
        words = [self.command, *MARKS.split(), "--out", str(way / "own"), "cellar.gsi"]
        answer = self.check(words, 5, f"write failed: {OUTPUTS[self.command][self.end]}")
        self.assertEqual(answer.lines[1:], [f"  '{at}': {WHY_NOT[self.what.split()[-1]]}"])
        self.assertEqual((texts_of(way), os.lstat(at).st_mode), (before, kind))


# What the second line says of an output that leads to a device, to a pipe, to a folder, or to itself.
WHY_NOT = {"device": "not a file", "pipe": "not a file", "folder": "a folder", "loop": "a link that leads nowhere"}


def shared_folder(case: unittest.TestCase) -> str:
    """A folder of the case below /dev, if there is one that all may write to."""
    if not os.access(SHARED, os.W_OK):
        case.skipTest(f"no folder {SHARED}")
    below = tempfile.TemporaryDirectory(dir=SHARED)
    case.addCleanup(below.cleanup)
    return below.name


class Device(Case):
    """A device takes its text if it is the very output that was typed below /dev."""

    def runTest(self) -> None:
        own = Path(shared_folder(self)) / "own"
        report = own.with_name("own.report.txt")
        try:
            os.mknod(report, 0o666 | stat.S_IFCHR, os.makedev(1, 3))
        except PermissionError:
            self.skipTest("only root may make a device")
        self.check(adjust(str(own)), 0)
        self.assertTrue(stat.S_ISCHR(report.lstat().st_mode))
        self.assertTrue(own.with_name("own.heights.gsi").is_file())


class Linked(Case):
    """Outputs that are links to files of others: the links are replaced, and what they lead to is as it was and never opened."""

    def __init__(self, below_devices: bool, broken: bool) -> None:
        super().__init__()
        self.title = f"outputs that are links to {'no files' if broken else 'files'}{' below /dev' if below_devices else ''}"
        self.below_devices, self.broken = below_devices, broken

    def runTest(self) -> None:
        way = Path(shared_folder(self)) if self.below_devices else self.folder / "way"
        way.mkdir(exist_ok=True)
        others = self.folder / "others"
        others.mkdir()
        for end in OUTPUTS["adjust"]:
            if not self.broken:
                (others / end).write_text("another's\n")
                # Nobody may write it, so that a run of another user than root that opens it fails.
                (others / end).chmod(0o444)
            (way / f"own.{end}").symlink_to(others / end)
        before = texts_of(others)
        self.check(adjust(str(way / "own")), 0)
        self.assertEqual(texts_of(others), before)
        for end in OUTPUTS["adjust"]:
            self.assertTrue(stat.S_ISREG((way / f"own.{end}").lstat().st_mode), end)


class TwoNames(Case):
    """An output that is another name of one open file gets the permissions of a new one."""

    def runTest(self) -> None:
        lent = self.folder / "lent"
        lent.mkdir()
        opened = {end: self.folder / f"open.{end}" for end in OUTPUTS["adjust"]}
        for end, path in opened.items():
            path.write_text("another's\n")
            path.chmod(0o666)
            os.link(path, lent / f"own.{end}")
        self.check(adjust("lent/own"), 0, preexec_fn=lambda: os.umask(0o027))
        for end in OUTPUTS["adjust"]:
            self.assertEqual(oct(stat.S_IMODE((lent / f"own.{end}").stat().st_mode)), oct(0o640), end)
            self.assertEqual(opened[end].read_text(), "another's\n")


class Mode(Case):
    """Outputs over files of a mode, or over none, get the wanted one. Nobody is lent rights."""

    def __init__(self, mask: int, old: Optional[int], wanted: int, owner: str = "") -> None:
        super().__init__()
        over = "no file" if old is None else f"a file of mode {old:o} of {owner or 'its user'}"
        self.title, self.mask, self.old, self.wanted, self.owner = f"over {over}, umask {mask:03o}", mask, old, wanted, owner

    def runTest(self) -> None:
        if not IS_ROOT and (self.owner or self.old == 0o444):
            self.skipTest("only root may")
        lent = self.folder / "lent"
        lent.mkdir()
        outputs = [lent / f"own.{end}" for end in OUTPUTS["adjust"]]
        for path in outputs if self.old is not None else []:
            path.write_text("old\n")
            if self.owner:
                shutil.chown(path, self.owner)
            path.chmod(self.old)
        self.check(adjust("lent/own"), 0, preexec_fn=lambda: os.umask(self.mask))
        for path in outputs:
            self.assertEqual(oct(stat.S_IMODE(path.stat().st_mode)), oct(self.wanted), path.name)


class Unwritten(Case):
    """A file that may not be written is not replaced."""

    def runTest(self) -> None:
        if IS_ROOT:
            self.skipTest("root may write it")
        self.write({"own.heights.csv": "old\n"})
        (self.folder / "own.heights.csv").chmod(0o444)
        self.check(adjust("own"), 5, "write failed: heights")


class LongName(Case):
    """Names that are as long as the system takes, or longer: all outputs, or none."""

    def __init__(self, length: int) -> None:
        super().__init__()
        self.title, self.length = f"a prefix of {length} bytes", length

    def runTest(self) -> None:
        long = self.folder / "long"
        long.mkdir()
        answer = self.answer(adjust("long/" + "x" * self.length))
        count = len(list(long.iterdir()))
        if self.length + max(len(f".{end}") for end in OUTPUTS["adjust"]) <= os.pathconf(long, "PC_NAME_MAX"):
            self.assertEqual((answer.status, count, answer.lines), (0, len(OUTPUTS["adjust"]), []))
        else:
            self.assertEqual((answer.status, count), (5, 0))
            self.assertRegex(answer.line(), "^write failed: ")
            self.assertRegex(answer.lines[1], "': file name too long$")


class Beside(Case):
    """What other runs left beside the outputs stays."""

    def runTest(self) -> None:
        beside = self.folder / "beside"
        beside.mkdir()
        for end in OUTPUTS["adjust"]:
            for left in ("unfinished", "1000000000.unfinished"):
                (beside / f"own.{end}.{left}").write_text("left\n")
        (beside / "1000000000-1.unfinished").write_text("left\n")
        before = texts_of(beside)
        self.check(adjust("beside/own"), 0)
        after = texts_of(beside)
        self.assertEqual({name: text for name, text in after.items() if name.endswith(".unfinished")}, before)
        self.assertEqual(after.keys() - before.keys(), {f"own.{end}" for end in OUTPUTS["adjust"]})


class Overwrites(Case):
    """An input that is one file with an output, by its name, by another path, by a hard or a symbolic link either way.

    Nothing is read or written then.
    """

    def __init__(self, command: str, end: str, what: str, way: str) -> None:
        super().__init__()
        self.title = f"{command} that would overwrite {what} at {end}, by way of '{way}'"
        self.command, self.end, self.what, self.way = command, end, what, way

    def words(self, name: str) -> Words:
        books, tables = ["cellar.gsi"], MARKS.split()
        if self.what == "book 1":
            books = [name, "missing.gsi"]
        elif self.what == "book 2":
            books = ["missing.gsi", name]
        elif self.what == "benchmarks":
            tables = ["--benchmarks", name]
        else:
            tables = ["--benchmarks", "missing.csv", "--weights", name]
        return [self.command, *tables, "--out", "spared/own", *books]

    def runTest(self) -> None:
        spared = self.folder / "spared"
        spared.mkdir()
        names = {"same": f"spared/own.{self.end}", "path": f"spared/../spared/own.{self.end}"}
        name = names.get(self.way, "spared/input")
        name = f"./{name}" if self.way == "path" else name
        source = {"benchmarks": "marks.csv", "weights": "factors.csv"}.get(self.what, "cellar.gsi")
        shutil.copy(self.folder / source, self.folder / name)
        read, output = spared / "input", spared / f"own.{self.end}"
        if self.way == "hard":
            os.link(read, output)
        elif self.way == "symbolic":
            output.symlink_to("input")
        elif self.way == "turned":
            read.rename(output)
            read.symlink_to(output.name)
        before = texts_of(self.folder)
        self.check(self.words(name), 3, f"error: output spared/own.{self.end} would overwrite {self.what} {name}")
        self.assertEqual(texts_of(self.folder), before)


class Apart(Case):
    """A file beside an input is no input, nor is an output of another command."""

    def __init__(self, command: str) -> None:
        super().__init__()
        self.title, self.command = f"{command} beside outputs of the other commands", command

    def runTest(self) -> None:
        shutil.copy(self.folder / "cellar.gsi", self.folder / "apart.gsi")
        others = [command for command in OUTPUTS if command != self.command]
        for command in [*others, self.command]:
            self.check(f"{command} {MARKS} --out apart apart.gsi", 0)


class Disk(Case):
    """A case with file systems of its own, where this user may mount some."""

    def mounted(self, name: str, size: str = "1m") -> Path:
        """A new file system in the folder, or a case that is skipped."""
        disk = self.folder / name
        disk.mkdir()
        done = subprocess.run(["mount", "-t", "tmpfs", "-o", f"size={size}", "tmpfs", str(disk)], stderr=subprocess.PIPE, check=False)
        if done.returncode != 0:
            self.skipTest("no file system can be mounted")
        self.addCleanup(subprocess.run, ["umount", str(disk)], check=False)
        return disk


class FullDisk(Disk):
    """A file system that is full sooner or later: all outputs are new, or all are old."""

    def __init__(self, kibibytes: int) -> None:
        super().__init__()
        self.title, self.kibibytes = f"a file system of {kibibytes} KiB", kibibytes

    def runTest(self) -> None:
        disk = self.mounted("disk", f"{self.kibibytes}k")
        for end in OUTPUTS["adjust"]:
            try:
                (disk / f"own.{end}").write_text("old\n")
            except OSError:
                pass  # It is full already.
        before = texts_of(disk)
        answer = self.answer(adjust("disk/own"))
        if answer.status != 0:
            self.assertEqual((answer.status, texts_of(disk)), (5, before))
            self.assertRegex(answer.line(), "^write failed: ")


class ReadOnlyDisk(Disk):
    def runTest(self) -> None:
        disk = self.mounted("disk")
        subprocess.run(["mount", "-o", "remount,ro", str(disk)], check=True)
        self.check(adjust("disk/own"), 5, "write failed: heights")


class NumberedAlike(Disk):
    """Two file systems that number their files alike: an input is not an output of the same number."""

    def runTest(self) -> None:
        disk, other = self.mounted("disk"), self.mounted("disk2")
        shutil.copy(self.folder / "cellar.gsi", disk / "book")
        (other / "own.heights.csv").write_text("old\n")
        if (disk / "book").stat().st_ino != (other / "own.heights.csv").stat().st_ino:
            self.skipTest("the file systems number their files in other ways")
        self.check(adjust("disk2/own", "disk/book"), 0)


def mode_cases() -> Iterator[Mode]:
    for mask in (0o022, 0o027, 0o077):
        own = 0o666 & ~mask
        yield Mode(mask, None, own)
        yield from (Mode(mask, old, wanted) for old, wanted in ((0o4777, 0o777), (0o2755, 0o755), (0o1644, 0o644), (0o600, 0o600), (0o660, 0o660)))
        yield Mode(mask, 0o444, 0o444)
        yield Mode(mask, 0o4777, own, "nobody")
        yield Mode(mask, 0o600, own, "nobody")


def cases() -> Iterator[unittest.TestCase]:
    ends = [(command, end) for command, outputs in OUTPUTS.items() for end in outputs]
    yield from (Unwritable(*at, what) for at in ends for what in ("device", "pipe", "folder", "loop", "shared device", "shared pipe"))
    yield Device()
    yield from (Linked(below_devices, broken) for below_devices in (False, True) for broken in (False, True))
    yield TwoNames()
    yield from mode_cases()
    yield Unwritten()
    yield from map(LongName, [*range(200, 255, 5), 239, 240])
    yield Beside()
    inputs, ways = ("book 1", "book 2", "benchmarks", "weights"), ("same", "path", "hard", "symbolic", "turned")
    yield from (Overwrites(*at, what, way) for at, what, way in itertools.product(ends, inputs, ways))
    yield from map(Apart, OUTPUTS)
    yield from map(FullDisk, (8, 16, 20, 24, 28, 32, 36, 40, 44, 48, 64))
    yield ReadOnlyDisk()
    yield NumberedAlike()
