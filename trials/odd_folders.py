"""Base folders with a file that is missing, empty, cut, longer or of another kind, and each command on them.

The log is cut at each byte, keys and messages at many. Each command works, or is refused with the fault in
docs/FORMATS.md. After a refusal nothing in the folder has changed. No command destroys existing messages, or waits
forever. As root it also tries files without rights as another user. Argument: the step between the bytes where
`messages.N` is cut (5).
"""
import os
import shutil
import stat
import subprocess
import sys
import tempfile

from lib.contents import PROGRAM, content_of, write
from lib.folder_station import COMMANDS, HELD, filled_station, finish, is_orderly, packets_in
from lib.judge import texts_of

READING = {"list": ("list", "base"), "export": ("export", "base"), "convert": ("convert", "base", "made")}
EVERY = {**READING, **COMMANDS}
OTHER = ("setpriv", "--reuid=65534", "--regid=65534", "--clear-groups")


def tree(base):
    """The contents of a folder: kinds, bytes and targets of links."""
    found = {}
    for name in sorted(os.listdir(base)):
        path = os.path.join(base, name)
        mode = os.lstat(path).st_mode
        what = os.readlink(path) if stat.S_ISLNK(mode) else sorted(os.listdir(path)) if stat.S_ISDIR(mode) else None
        found[name] = stat.S_IFMT(mode), what, content_of(path) if stat.S_ISREG(mode) else None
    return found


class Odd:
    """The station whose base is changed, and the counts."""

    def __init__(self, work):
        self.work, self.station, self.place = work, filled_station(os.path.join(work, "station")), os.path.join(work, "place")
        self.base, self.before, self.turn = os.path.join(self.place, "base"), (), 0
        self.texts = texts_of(os.path.join(self.station, "base"))
        whole = os.path.join(self.station, "base")
        self.number = next(name for name in os.listdir(whole) if name.startswith("messages."))[-1]
        names = ("log", "messages." + self.number, "keys." + self.number)
        self.files = {name: content_of(os.path.join(whole, name)) for name in names}
        self.program = shutil.copy(PROGRAM, os.path.join(work, "program"))
        self.folders = self.runs = 0
        self.wrong = []

    def expect(self, what, held):
        """Counts what held."""
        HELD[bool(held)] += 1
        if not held:
            self.wrong.append(what)

    def run(self, words):
        """Runs a command. Returns status, output and fault. One that waits is killed, and has the status None."""
        self.runs += 1
        try:
            ended = subprocess.run([*self.before, self.program, *words], cwd=self.place, stdin=subprocess.DEVNULL,
                                   capture_output=True, timeout=60, check=False)
        except subprocess.TimeoutExpired:
            return None, b"", b"waits"
        return ended.returncode, ended.stdout, ended.stderr

    def fresh(self, spoil):
        """The station, with its changed base."""
        if os.path.exists(self.place):
            shutil.rmtree(self.place)
        shutil.copytree(self.station, self.place)
        spoil(self.base)
        if self.before:
            for folder, folders, files in os.walk(self.place):
                for path in [folder] + [os.path.join(folder, name) for name in folders + files]:
                    os.chown(path, 65534, 65534, follow_symlinks=False)

    def attempt(self, what, spoil, wanted, names=EVERY):
        """Tries commands on a changed base. Wanted is a fault, `refused`, `same`, `empty`, or `either` refused or the
        same."""
        self.folders += 1
        self.fresh(spoil)
        for name in names:
            before = tree(self.base)
            ended = self.run(EVERY[name])
            after, told = tree(self.base), "%s: %s: %r" % (what, name, ended)
            if wanted in ("same", "empty") or wanted == "either" and ended[0] == 0:
                self.expect(told, ended[0] == 0 and (name not in READING or before == after))
                texts = texts_of(self.base) if ended[0] == 0 and not self.before else None
                if texts is not None and wanted != "empty" and name != "purge":
                    self.expect("%s: lost messages" % told, set(self.texts) <= set(texts))
                if name == "list":
                    count = 0 if wanted == "empty" else len(self.texts)
                    self.expect("%s: other messages" % told, ended[1].split(b"\n")[-2].startswith(b"end %d messages," % count))
            else:
                fault = b"echonet: " + (wanted.encode() if wanted[0] == "F" else b"")
                self.expect(told, is_orderly(ended) and ended[0] and ended[2].startswith(fault))
                self.expect("%s: the folder changed" % told, before == after)
                self.expect("%s: packets" % told, not packets_in(os.path.join(self.place, "out")))
            if before != after or os.path.exists(os.path.join(self.place, "made")):
                self.fresh(spoil)
        if self.wrong:
            print("failed: %s (%d in all)" % (self.wrong[0], len(self.wrong)), file=sys.stderr, flush=True)
            self.wrong.clear()

    def some(self):
        """`list` and two other commands, different ones each time."""
        self.turn += 1
        others = [name for name in EVERY if name != "list"]
        return ["list"] + [others[(self.turn + more) % len(others)] for more in (0, 3)]

    def replaced(self, name, content):
        """Replaces a file, or removes it."""
        def spoil(base):
            os.remove(os.path.join(base, name))
            if content is not None:
                write(os.path.join(base, name), content)
        return spoil

    def other_kind(self, name, deed):
        """Removes a file, and calls `deed` with its path and with the path of a copy outside the folder."""
        def spoil(base):
            path, copy = os.path.join(base, name), os.path.join(self.place, "copy")
            if not os.path.exists(copy):
                shutil.copy(path, copy)
            os.remove(path)
            deed(path, copy)
        return spoil

    def with_mode(self, name, mode):
        """Gives a file of the folder, or the folder, this mode."""
        return lambda base: os.chmod(os.path.join(base, name), mode)

    def only(self, contents):
        """A folder with only these files."""
        def spoil(base):
            shutil.rmtree(base)
            os.mkdir(base)
            for name, content in contents.items():
                write(os.path.join(base, name), content)
        return spoil


def try_cuts(odd, step):
    """Each file missing, empty, cut and longer."""
    log = odd.files["log"]
    for name, content in odd.files.items():
        for found, what in ((None, "missing"), (b"", "empty")):
            odd.attempt("%s is %s" % (name, what), odd.replaced(name, found), "F1 NotBase\n" if name == "log" else "F2 Truncated record ")
        for cut in range(1, len(content), step if name.startswith("messages") else 1):
            odd.attempt("%s cut at %d of %d" % (name, cut, len(content)), odd.replaced(name, content[:cut]),
                        "F2 Truncated record ", odd.some())
        for more in (b"\0", b"\xff", bytes(50), bytes(51), b"\xff" * 51, bytes(1000)):
            is_log_too_long = name == "log" and len(more) > 50
            odd.attempt("%s longer by %d of %02x" % (name, len(more), more[0]), odd.replaced(name, content + more),
                        "F1 NotBase\n" if is_log_too_long else "same")
    odd.attempt("the log has a byte more than a stopped commit leaves", odd.replaced("log", log + bytes(51)), "F1 NotBase\n")


def try_folders(odd):
    """Folders with other files."""
    (_, log), (messages, texts), (keys, entries) = odd.files.items()
    for name, content in ((messages, texts), (keys, entries), ("messages.7", b"x"), ("keys.7", b"x")):
        odd.attempt("%s alone" % name, odd.only({name: content}), "F1 NotBase\n")
        odd.attempt("%s and an empty log" % name, odd.only({"log": b"", name: content}), "F1 NotBase\n")
    odd.attempt("no file", odd.only({}), "empty", [name for name in EVERY if name != "reply"])
    for files in ({"log": b""}, {messages: b"", keys: b""}, {"log": b"", messages: b"", keys: b""}):
        odd.attempt("empty files %s" % sorted(files), odd.only(files), "empty", [name for name in EVERY if name != "reply"])
    odd.attempt("another file and no log", odd.only({"other": b"x"}), "F1 NotBase\n")
    odd.attempt("another file and all three", odd.only({"other": b"x", **odd.files}), "same")
    left = str((int(odd.number) + 1) % 10)
    odd.attempt("what a stopped purge leaves", odd.only({"messages." + left: texts[:9], "keys." + left: b"", **odd.files}), "same")
    odd.attempt("a log of zeros", odd.replaced("log", bytes(len(log))), "F1 NotBase\n")


def try_kinds(odd):
    """Files of another kind."""
    for name in odd.files:
        for what, deed, wanted in (
                ("a folder", lambda path, _: os.mkdir(path), "refused"),
                ("a folder with a file", lambda path, copy: (os.mkdir(path), shutil.copy(copy, path)), "refused"),
                ("a pipe", lambda path, _: os.mkfifo(path), "refused"),
                ("a link to nowhere", lambda path, _: os.symlink("nowhere", path), "refused"),
                ("a link to itself", lambda path, _: os.symlink(path, path), "refused"),
                ("a link to a copy", lambda path, copy: os.symlink(copy, path), "either")):
            odd.attempt("%s is %s" % (name, what), odd.other_kind(name, deed), wanted)
    if os.geteuid() == 0:
        if not shutil.which("setpriv"):
            print("setpriv is not installed: no files without rights")
            return
        odd.before = OTHER
    for name in odd.files:
        for mode in (0o000, 0o200):
            odd.attempt("%s of mode %o" % (name, mode), odd.with_mode(name, mode), "refused")
        odd.attempt("%s of mode 444" % name, odd.with_mode(name, 0o444), "same", READING)
    odd.attempt("a folder of mode 000", odd.with_mode("", 0o000), "refused")
    odd.attempt("a folder of mode 555", odd.with_mode("", 0o555), "same", READING)


def main(words):
    """All of it."""
    with tempfile.TemporaryDirectory(prefix="echonet-trials.") as work:
        os.chmod(work, 0o755)
        odd = Odd(work)
        try_cuts(odd, int(words[0]) if words else 5)
        try_folders(odd)
        try_kinds(odd)
        print("%d odd folders, %d commands" % (odd.folders, odd.runs))
    return finish("odd_folders")


if __name__ == "__main__":
    sys.exit(main(sys.argv[1:]))
