"""The process that unpacks a bundle. It has limits, and writes members under numbers."""
from __future__ import annotations

import errno
import json
import os
import resource
import shutil
import signal
import subprocess
import zipfile
import zlib
from dataclasses import asdict
from os.path import join
from typing import IO, NoReturn, Optional

from .bundles import MOST_MEMBER, MOST_MEMBERS, MOST_TOTAL, TOO_LARGE, TOO_MANY, Kind, Unpacked, fault_of_zip, kind_of

MOST_MEMORY = 1 << 30
MOST_SECONDS = 120
MOST_WAIT = 400
METHODS = (zipfile.ZIP_STORED, zipfile.ZIP_DEFLATED, zipfile.ZIP_BZIP2, zipfile.ZIP_LZMA)
ENCRYPTED = 1
PIECE = 1 << 16
PROGRAMS = ("7z", "7zz", "7za")
UNREAD = (Kind.ARC, Kind.ZOO)
BAD_PLACES = (errno.EINVAL, errno.EOVERFLOW, None)  # what a spoiled index makes of a seek


def run_child(path: str, folder: str, writing: int) -> NoReturn:
    """Unpacks, writes what it found, and ends the process."""
    status = 1
    try:
        resource.setrlimit(resource.RLIMIT_AS, (MOST_MEMORY, MOST_MEMORY))
        resource.setrlimit(resource.RLIMIT_CPU, (MOST_SECONDS, MOST_SECONDS))
        resource.setrlimit(resource.RLIMIT_FSIZE, (MOST_MEMBER, MOST_MEMBER))
        signal.alarm(MOST_WAIT)
        told = json.dumps(asdict(unpacked(path, folder))).encode()
        with os.fdopen(writing, "wb") as pipe:
            pipe.write(told)
        status = 0
    finally:
        os._exit(status)


def unpacked(path: str, folder: str) -> Unpacked:
    """Unpacks. A full disk is not the bundle's fault."""
    result = Unpacked()
    try:
        with open(path, "rb") as file:
            size = os.fstat(file.fileno()).st_size
            kind = kind_of(file.read(16))
            if kind is Kind.ZIP:
                unpack_zip(path, file, size, folder, result)
            else:
                unpack_other(path, kind, folder, result)
    except OSError as fault:
        if fault.errno == errno.EFBIG:
            result.fault = TOO_LARGE
        elif fault.errno in BAD_PLACES:
            result.fault = "damaged: %s" % type(fault).__name__
        else:
            result.failed = fault.strerror or str(fault)
    except subprocess.TimeoutExpired:
        result.fault = "cannot be unpacked in %d seconds" % MOST_SECONDS
    except Exception as fault:  # whatever an archive makes the readers raise
        result.fault = result.fault or "damaged: %s" % type(fault).__name__
    return result


def fault_of_sizes(sizes: list[int]) -> Optional[str]:
    """Whether there are too many members, or too large ones."""
    if len(sizes) > MOST_MEMBERS:
        return TOO_MANY
    if sum(sizes) > MOST_TOTAL or max(sizes, default=0) > MOST_MEMBER:
        return TOO_LARGE
    return None


def unpack_zip(path: str, file: IO[bytes], size: int, folder: str, result: Unpacked) -> None:
    """Unpacks a zip. The reader gives no more bytes of a member than its index states, and checks them."""
    result.fault = fault_of_zip(file, size)
    if result.fault:
        return
    archive = zipfile.ZipFile(file)
    members = [member for member in archive.infolist() if not member.is_dir()]
    result.fault = fault_of_sizes([member.file_size for member in members])
    if result.fault:
        return
    if any(member.compress_type not in METHODS for member in members):
        unpack_other(path, Kind.ZIP, folder, result)  # shrunk or imploded, as PKZIP 1 did
        return
    for number, member in enumerate(members, 1):
        result.members.append(unpack_member(archive, member, join(folder, str(number))))


def unpack_member(archive: zipfile.ZipFile, member: zipfile.ZipInfo, path: str) -> Optional[str]:
    """Unpacks one member of a zip. Returns its fault."""
    if member.flag_bits & ENCRYPTED:
        return "encrypted"
    try:
        with archive.open(member) as content, open(path, "wb") as copy:
            shutil.copyfileobj(content, copy, PIECE)
    except OSError as fault:
        if fault.errno not in BAD_PLACES:
            raise
        return "damaged: %s" % type(fault).__name__
    except Exception as fault:
        return "damaged: %s" % type(fault).__name__
    return None


def unpack_other(path: str, kind: Optional[Kind], folder: str, result: Unpacked) -> None:
    """Unpacks by 7z: one stream of all members, cut by the sizes that it lists."""
    program = program_of(PROGRAMS)
    name = kind.value if kind else "unknown"
    if not program or kind is None or kind in UNREAD:
        result.fault = "%s bundle, and no program for it" % name
        return
    members = listed(program, path)
    if not members:
        result.fault = "rar bundle, and no program for it" if kind is Kind.RAR else "damaged: %s" % name
        return
    sizes = [int(member["Size"]) if member.get("Size", "").isdigit() else MOST_TOTAL + 1 for member in members]
    result.fault = fault_of_sizes(sizes)
    if not result.fault and any(member.get("Encrypted") == "+" for member in members):
        result.fault = "encrypted"
    if not result.fault:
        cut_stream(program, path, kind, list(zip(members, sizes)), folder, result)


def program_of(names: tuple[str, ...]) -> Optional[str]:
    """The first of these programs that is there."""
    for name in names:
        found = shutil.which(name)
        if found:
            return found
    return None


def listed(program: str, path: str) -> list[dict[str, str]]:
    """What 7z says of the members that are files: nothing, if it cannot read the archive."""
    words = [program, "l", "-slt", "-ba", "-p-", "--", path]
    environment = dict(os.environ, LC_ALL="C.UTF-8")
    ran = subprocess.run(
        words,
        stdin=subprocess.DEVNULL,
        stdout=subprocess.PIPE,
        stderr=subprocess.DEVNULL,
        timeout=MOST_SECONDS,
        env=environment,
        check=False,
    )
    if ran.returncode:
        return []
    members: list[dict[str, str]] = []
    for line in ran.stdout.decode("utf-8", "replace").split("\n"):
        key, _, value = line.partition(" = ")
        if key == "Path":
            members.append({})
        if members:
            members[-1].setdefault(key, value)
    return [it for it in members if it.get("Folder") != "+" and not it.get("Attributes", "").startswith("D")]


def cut_stream(program: str, path: str, kind: Kind, members: list[tuple[dict[str, str], int]], folder: str, result: Unpacked) -> None:
    """Writes the members that 7z unpacks, and compares each with its checksum."""
    run = subprocess.Popen(
        [program, "e", "-so", "-p-", "--", path], stdin=subprocess.DEVNULL, stdout=subprocess.PIPE, stderr=subprocess.DEVNULL
    )
    assert run.stdout is not None
    try:
        for number, (member, size) in enumerate(members, 1):
            checksum = copy_member(run.stdout, size, join(folder, str(number)))
            stated = member.get("CRC", "")
            # For lzh it lists a sum of 16 bits, of another kind.
            is_good = checksum is not None and (kind is Kind.LZH or len(stated) != 8 or int(stated, 16) == checksum)
            result.members.append(None if is_good else "damaged")
        if run.stdout.read(1) or run.wait(MOST_SECONDS):
            result.fault = "damaged: %s" % kind.value
    finally:
        run.kill()
        run.wait()


def copy_member(stream: IO[bytes], size: int, path: str) -> Optional[int]:
    """Copies a member. Returns its CRC-32, or nothing if the stream ends before it."""
    checksum = 0
    with open(path, "wb") as copy:
        while size:
            piece = stream.read(min(size, PIECE))
            if not piece:
                return None
            checksum = zlib.crc32(piece, checksum)
            copy.write(piece)
            size -= len(piece)
    return checksum
