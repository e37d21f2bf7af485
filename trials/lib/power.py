"""A disk whose power can be cut at any time: a block device that logs each write and each flush.

A FUSE file system of one file has the image. This module serves it by /dev/fuse. A loop device uses that file, and a
file system of the kernel uses the loop device. The log is played again up to a cut. The disk has all that was written
before the last flush, and any part of what was written after it, in sectors. Sectors have 512 bytes, or 4096 for
btrfs, whose super block must not be torn. Only root can do this.
"""
import contextlib
import ctypes
import errno
import os
import shutil
import struct
import subprocess
import sys
import time

FLUSH, MARK = 2 ** 64 - 1, 2 ** 64 - 2
PATH = os.environ.get("PATH", "") + ":/usr/sbin:/sbin"
LIBC = ctypes.CDLL(None, use_errno=True)
# How each file system is made and mounted, the bytes of its image and of its sectors.
KINDS = {
    "ext4": (["mkfs.ext4", "-q", "-E", "nodiscard,lazy_itable_init=0,lazy_journal_init=0"], "", 64 << 20, 512),
    "xfs": (["mkfs.xfs", "-q", "-K"], "nouuid,nodiscard", 300 << 20, 512),
    "btrfs": (["mkfs.btrfs", "-q", "-K", "--mixed", "-m", "single"], "nodiscard", 96 << 20, 4096),
}


def enter():
    """Continues in a name space of its own for mounts, which end with it. Returns why that is not possible, or
    nothing."""
    if os.environ.get("POWER_ENTERED"):
        return None
    if os.geteuid() != 0:
        return "only root can mount a disk that logs its writes"
    for path in ("/dev/fuse", "/dev/loop-control"):
        if not os.path.exists(path):
            return "there is no %s" % path
    if not shutil.which("unshare") or subprocess.run(["unshare", "-m", "true"], stderr=subprocess.DEVNULL,
                                                     check=False).returncode:
        return "mounts cannot be kept apart (unshare -m)"
    os.environ["POWER_ENTERED"] = "1"
    os.execvp("unshare", ["unshare", "-m", sys.executable, *sys.argv])


def kinds(chosen=()):
    """The file systems that can be made here, of the chosen ones or of all."""
    found = []
    for kind, (words, *_) in KINDS.items():
        if not chosen or kind in chosen:
            if shutil.which(words[0], path=PATH):
                found.append(kind)
            else:
                print("there is no %s: no cuts on %s" % (words[0], kind))
    return found


@contextlib.contextmanager
def mounted(kind, image, at):
    """Mounts an image: the file of a disk, or what a cut left."""
    if kind == "btrfs":
        subprocess.run(["btrfs", "device", "scan", "--forget"], check=False, capture_output=True)
    options = ",".join(filter(None, ("loop", KINDS[kind][1])))
    subprocess.run(["mount", "-t", kind, "-o", options, image, at], check=True)
    try:
        yield at
    finally:
        for _ in range(100):
            if subprocess.run(["umount", at], stderr=subprocess.DEVNULL, check=False).returncode == 0:
                break
            time.sleep(0.05)


def copy_sparse(source, target):
    """Copies an image without its holes."""
    size = os.fstat(source).st_size
    os.ftruncate(target, 0)
    os.ftruncate(target, size)
    begin = end = 0
    while end < size:
        try:
            begin = os.lseek(source, end, os.SEEK_DATA)
        except OSError as fault:
            if fault.errno == errno.ENXIO:
                break
            raise
        end = os.lseek(source, begin, os.SEEK_HOLE)
        for at in range(begin, end, 1 << 20):
            os.pwrite(target, os.pread(source, min(1 << 20, end - at), at), at)


class Served:
    """Serves the one file of the FUSE file system, and logs the calls on it."""

    def __init__(self, fuse, image, log):
        self.fuse, self.image, self.log = fuse, image, log
        self.size = os.fstat(image).st_size

    def serve(self):
        """Answers requests until the file system is unmounted."""
        while True:
            try:
                request = os.read(self.fuse, (1 << 20) + 8192)
            except OSError as fault:
                if fault.errno in (errno.EINTR, errno.ENOENT, errno.EAGAIN):
                    continue
                return
            _, kind, unique = struct.unpack_from("<2IQ", request)
            if kind in (2, 36, 42):  # FORGET, INTERRUPT, BATCH_FORGET: these get no answer
                continue
            answer = self.answer(kind, request[40:])
            code, content = (answer, b"") if isinstance(answer, int) else (0, answer)
            with contextlib.suppress(FileNotFoundError):
                os.write(self.fuse, struct.pack("<IiQ", 16 + len(content), -code, unique) + content)

    def answer(self, kind, words):
        """The answer to a request: bytes, or the number of an error."""
        if kind == 26:  # INIT: 7.31, writes of a megabyte
            return struct.pack("<4I2H2I2H32x", 7, 31, 1 << 20, 1 | 1 << 5 | 1 << 22, 16, 12, 1 << 20, 1, 256, 0)
        if kind in (3, 4):  # GETATTR, SETATTR
            return struct.pack("<Q2I6Q10I", 3600, 0, 0, 1, self.size, self.size // 512, 0, 0, 0, 0, 0, 0, 0o100600, 1,
                               0, 0, 0, 4096, 0)
        if kind == 14:  # OPEN
            return struct.pack("<Q2I", 1, 0, 0)
        if kind == 15:  # READ
            _, at, size = struct.unpack_from("<2QI", words)
            return os.pread(self.image, size, at)
        if kind == 16:  # WRITE
            _, at, size = struct.unpack_from("<2QI", words)
            content = words[40:40 + size]
            os.pwrite(self.image, content, at)
            add(self.log, at, content)
            return struct.pack("<2I", size, 0)
        if kind == 20:  # FSYNC
            add(self.log, FLUSH, b"")
            return b""
        if kind in (18, 25, 38):  # RELEASE, FLUSH, DESTROY
            return b""
        return errno.ENOSYS


def add(log, at, content):
    """Adds an entry to the log."""
    os.writev(log, [struct.pack("<QI", at, len(content)), content])


def entries(path):
    """The entries of a log: a place, or FLUSH or MARK, and bytes."""
    with open(path, "rb") as file:
        while front := file.read(12):
            at, size = struct.unpack("<QI", front)
            yield at, file.read(size)


class Disk:
    """A disk with a file system in a folder: it is written once, with a log, and then cut many times."""

    def __init__(self, folder, kind):
        self.kind, self.at = kind, os.path.join(folder, "at")
        self.log_path, self.start, self.image = (os.path.join(folder, name) for name in ("log", "start", "image"))
        self.file = os.path.join(folder, "file")
        os.makedirs(self.at)
        words, _, size, self.sector = KINDS[kind]
        with open(self.image, "wb") as file:
            file.truncate(size)
        subprocess.run([*words, self.image], check=True, stdout=subprocess.DEVNULL, stderr=subprocess.DEVNULL,
                       env={**os.environ, "PATH": PATH})
        for source, target in ((self.image, self.start), (self.start, self.image)):
            subprocess.run(["cp", "--sparse=always", source, target], check=True)
        open(self.file, "wb").close()
        self.log = os.open(self.log_path, os.O_CREAT | os.O_WRONLY | os.O_APPEND, 0o600)

    @contextlib.contextmanager
    def recording(self):
        """Mounts the disk, with a log of the writes."""
        fuse = os.open("/dev/fuse", os.O_RDWR)
        options = "fd=%d,rootmode=100600,user_id=0,group_id=0,allow_other" % fuse
        if LIBC.mount(b"echonet-disk", self.file.encode(), b"fuse", 0, options.encode()):
            raise OSError(ctypes.get_errno(), "mount of a FUSE file system")
        server = os.fork()
        if server == 0:
            try:
                Served(fuse, os.open(self.image, os.O_RDWR), self.log).serve()
            finally:
                os._exit(0)
        os.close(fuse)
        try:
            with mounted(self.kind, self.file, self.at):
                yield self.at
        finally:
            LIBC.umount2(self.file.encode(), 2)
            os.waitpid(server, 0)

    def mark(self, words):
        """Writes a mark to the log."""
        add(self.log, MARK, words.encode())

    def cuts(self, chance, count):
        """Cuts the power so many times, half of them immediately after a flush. Yields the marks before the cut, and
        the image of the disk, in the order of the log."""
        log = list(entries(self.log_path))
        first = next(number for number, (at, _) in enumerate(log) if at == MARK)
        flushes = [number for number, (at, _) in enumerate(log) if at == FLUSH and number > first] or [first]
        places = sorted(chance.choice((chance.randrange(first, len(log)), chance.choice(flushes))) + 1 for _ in range(count))
        durable, image = (os.open(path, os.O_RDWR) for path in (self.start, self.image))
        marks, pending, number = [], [], 0
        for place in places:
            for at, content in log[number:place]:
                if at == MARK:
                    marks.append(content.decode())
                elif at == FLUSH:
                    for before in pending:
                        os.pwrite(durable, before[1], before[0])
                    pending.clear()
                else:
                    pending.append((at, content))
            number = place
            copy_sparse(durable, image)
            for at, content in kept_of(chance, pending, self.sector):
                os.pwrite(image, content, at)
            yield marks, self.image
        os.close(durable)
        os.close(image)


def kept_of(chance, pending, sector):
    """The part of unflushed writes that a disk keeps: the first ones, or any of them, some of them torn."""
    way = chance.choice(("all", "none", "first", "some", "torn"))
    if way == "first":
        pending = pending[:chance.randrange(len(pending) + 1)]
    for at, content in pending if way != "none" else []:
        if way in ("some", "torn") and chance.random() < 0.5:
            if way == "some":
                continue
            cut = sector * chance.randrange(len(content) // sector + 1)
            at, content = chance.choice(((at, content[:cut]), (at + cut, content[cut:])))
        yield at, content
