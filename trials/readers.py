"""Runs several `export --jam` and `export --msg` at the same time, and after power cuts.

No message of the base may be exported twice, and the counts have to be right. A JAM base after a power cut is begun
again or continued. Staging files of stopped runs are removed. Links are not followed, and new files have the mode
of the umask.
"""
import fcntl
import os
import random
import shutil
import subprocess
import sys
import tempfile
import time

import jam
import stored
from lib.contents import read, write

FIXED = 1024


def made(count):
    """Messages, of which the first are scanned."""
    messages = []
    for number in range(count):
        messages.append(jam.made(random.Random(number), number, [message.id for message in messages]))
        messages[-1].scanned = number < count // 4
    return messages


def words_of(form, path, base, first=0):
    """The arguments of an export."""
    return [jam.PROGRAM, "export", form, path, "--area", "TEST", "--from", str(first), base]


def expect(what, got, wanted):
    """Ends the trial if something is not as it has to be."""
    if got != wanted:
        sys.exit("%s: %r, and not %r" % (what, got, wanted))


def quiet(words, mask=0o022):
    """Runs the program under this umask."""
    return subprocess.run(words, stdout=subprocess.PIPE, stderr=subprocess.DEVNULL, umask=mask, check=False)


def waited(form, path, base, locked, change):
    """The output of a run that waits for a lock during this action."""
    lock = os.open(locked, os.O_RDONLY)
    fcntl.flock(lock, fcntl.LOCK_EX)
    with subprocess.Popen(words_of(form, path, base), stdout=subprocess.PIPE) as waiting:
        time.sleep(0.3)
        expect("a run that waits", waiting.poll(), None)
        change()
        os.close(lock)
        return waiting.communicate()[0].decode()


def exported(count, end):
    """The line of a run."""
    return "exported %d messages, next %d\n" % (count, end)


def try_two_jam(place, base, messages):
    """A run that waited for another one adds no message of the other one again, although the base grew in between."""
    path, other, some = os.path.join(place, "two"), os.path.join(place, "other"), messages[:-3]
    jam.write_base(base, messages)
    jam.add(other, base, 0, messages, len(messages))
    jam.write_base(base, some)
    jam.add(path, base, 0, some, len(some))

    def grow():
        jam.write_base(base, messages)
        jam.put(path, jam.contents(other))

    expect("two runs", waited("--jam", path, base, path + ".jhr", grow), exported(0, len(messages)))
    jam.check_all(path, messages)


def try_begun(place, base, messages):
    """Runs at once that find no JAM base add each message once."""
    path = os.path.join(place, "begun")
    jam.write_base(base, messages)
    for _ in range(10):
        for end in jam.ENDS:
            if os.path.exists(path + end):
                os.remove(path + end)
        runs = [subprocess.Popen(words_of("--jam", path, base), stdout=subprocess.PIPE, stderr=subprocess.DEVNULL)
                for _ in range(4)]
        told = sorted(run.communicate()[0].decode() for run in runs)
        expect("runs that begin", told, [exported(0, len(messages))] * 3 + [exported(len(messages), len(messages))])
        jam.check_all(path, messages)


def try_two_msg(place, base, messages):
    """The same for folders of stored messages."""
    folder, other, some = os.path.join(place, "two.msg"), os.path.join(place, "other.msg"), messages[:-3]
    jam.write_base(base, messages)
    stored.add(other, base, 0, len(messages), len(messages))
    jam.write_base(base, some)
    stored.add(folder, base, 0, len(some), len(some))

    def grow():
        jam.write_base(base, messages)
        for name in os.listdir(other):
            shutil.copy(os.path.join(other, name), os.path.join(folder, name))

    expect("two runs", waited("--msg", folder, base, folder, grow), exported(0, len(messages)))
    contents = stored.files_of(folder)
    for message, content in zip(messages, contents, strict=True):
        stored.check(message, content)


def try_zeros(place, base, messages):
    """Entries of zeros at the end are overwritten if the count includes none of them. Else the base is refused."""
    path, some = os.path.join(place, "zeros"), messages[:-4]
    jam.write_base(base, some)
    jam.add(path, base, 0, some, len(some))
    headers, texts, index, last = jam.contents(path)
    for zeros in (8, 13, 24, 80):
        jam.put(path, [headers, texts + b"left", index + bytes(zeros), last])
        jam.write_base(base, messages)
        jam.add(path, base, 0, messages[-4:], len(messages))
        jam.check_all(path, messages)
        expect("the index", os.path.getsize(path + ".jdx"), 8 * len(messages))
        jam.put(path, [headers, texts, index + bytes(zeros), last])
        jam.write_base(base, some)
        jam.add(path, base, 0, [], len(some))
        expect("the index", read(path + ".jdx")[:len(index) + 8], index)
        for bad in (index[:-8] + bytes(8), bytes(8) + index[8:], bytes(len(index))):
            files = [headers, texts, bad + bytes(zeros - zeros % 8), last]
            jam.put(path, files)
            expect("zeros", jam.run(path, base), (3, "", "echonet: cannot use %s\n" % path))
            expect("the files", jam.contents(path), files)


def try_alone(place, base, messages):
    """Files with empty headers only are begun again."""
    path = os.path.join(place, "alone")
    jam.write_base(base, [])
    jam.add(path, base, 0, [], 0)
    fixed = read(path + ".jhr")
    jam.write_base(base, messages)
    for found in (fixed, b"", bytes(512), bytes(FIXED)):
        for left in ([], [".jdx"], [".jdx", ".jdt", ".jlr"]):
            for end in jam.ENDS:
                if os.path.exists(path + end):
                    os.remove(path + end)
            write(path + ".jhr", found)
            for end in left:
                write(path + end, b"")
            jam.add(path, base, 0, messages, len(messages))
            jam.check_all(path, messages)
    for found, index in ((fixed[:-1], None), (fixed + b"\0", None), (b"", b"x"), (bytes(FIXED), bytes(8)), (b"other", None)):
        for end in jam.ENDS:
            if os.path.exists(path + end):
                os.remove(path + end)
        write(path + ".jhr", found)
        if index is not None:
            write(path + ".jdx", index)
        expect("alone", jam.run(path, base), (3, "", "echonet: cannot use %s\n" % path))
        expect("headers", read(path + ".jhr"), found)


def try_links(place, base, messages):
    """A symbolic link at the path of a file is not followed."""
    path, kept = os.path.join(place, "link"), os.path.join(place, "kept")
    jam.write_base(base, messages)
    jam.add(kept, base, 0, messages[:], len(messages))
    for linked in jam.ENDS:
        for is_there in (True, False):
            for end in jam.ENDS:
                if os.path.lexists(path + end):
                    os.remove(path + end)
                if end != linked and is_there:
                    shutil.copy(kept + end, path + end)
            target = kept + linked if is_there else os.path.join(place, "missing")
            os.symlink(target, path + linked)
            content = read(kept + linked)
            expect("a link", jam.run(path, base), (3, "", "echonet: cannot use %s\n" % path))
            expect("what it leads to", read(kept + linked), content)
            expect("nothing is made", os.path.exists(os.path.join(place, "missing")), False)


def try_left(place, base, messages):
    """Staging files of stopped runs are removed, whatever their contents. Other kinds of files stay."""
    path, folder = os.path.join(place, "left"), os.path.join(place, "left.msg")
    jam.write_base(base, messages)
    os.makedirs(folder)
    beside = path + ".jhr.~jam~.new"
    for content in (b"", b"anything", bytes(4096)):
        write(beside, content)
        expect("left", jam.run(path, base)[0], 0)
        expect("it is gone", os.path.exists(beside), False)
        for name in ("2.msg.~msg~.new", "77.msg.~msg~.new", "3.MSG.~msg~.new"):
            write(os.path.join(folder, name), content)
        others = ["x.msg.~msg~.new", "4.msg.~1.10.2~.new", "4.msg.new"]
        for name in others:
            write(os.path.join(folder, name), content)
        expect("left", quiet(words_of("--msg", folder, base)).returncode, 0)
        expect("what is there", sorted(name for name in os.listdir(folder) if name.endswith("new")), sorted(others))
    for name in others:
        os.remove(os.path.join(folder, name))
    contents = stored.files_of(folder)
    os.link(os.path.join(folder, "5.msg"), os.path.join(folder, "5.msg.~msg~.new"))
    os.link(path + ".jhr", beside)
    os.symlink(os.path.join(place, "base"), os.path.join(folder, "9.msg.~msg~.new"))
    for words in (words_of("--msg", folder, base), words_of("--jam", path, base)):
        expect("linked", quiet(words).stdout.decode(), exported(0, len(messages)))
    expect("stopped before it was removed", [os.path.exists(beside), os.path.exists(os.path.join(folder, "5.msg.~msg~.new"))],
           [False, False])
    expect("a link stays", os.path.islink(os.path.join(folder, "9.msg.~msg~.new")), True)
    os.remove(os.path.join(folder, "9.msg.~msg~.new"))
    expect("the files", stored.files_of(folder), contents)
    jam.check_all(path, messages)
    if os.geteuid() == 0:
        try_others(path, folder, base, messages)


def try_others(path, folder, base, messages):
    """What another user left stays, unless a file of this kind replaces it."""
    first, beside = os.path.join(folder, "2.msg"), os.path.join(folder, "2.msg.~msg~.new")
    wanted = read(first)
    for content, status in ((b"anything", 3), (wanted[:50], 0), (b"", 0)):
        for name in os.listdir(folder):
            os.remove(os.path.join(folder, name))
        write(beside, content)
        os.chown(beside, 65534, 65534)
        expect("left by another user", quiet(words_of("--msg", folder, base)).returncode, status)
        expect("it is gone", os.path.exists(beside), status == 3)
    write(path + ".jhr.~jam~.new", b"anything")
    os.chown(path + ".jhr.~jam~.new", 65534, 65534)
    expect("left by another user", quiet(words_of("--jam", path, base)).stdout.decode(), exported(0, len(messages)))
    expect("it stays", read(path + ".jhr.~jam~.new"), b"anything")


def try_modes(place, base, messages):
    """New files have the mode of the umask."""
    jam.write_base(base, messages)
    for mask in (0o022, 0o027, 0o077, 0o002):
        path, folder = os.path.join(place, "mode%o" % mask), os.path.join(place, "mode%o.msg" % mask)
        os.makedirs(folder)
        for form, where in (("--jam", path), ("--msg", folder)):
            expect("an export", quiet(words_of(form, where, base), mask).returncode, 0)
        files = [path + end for end in jam.ENDS] + [os.path.join(folder, name) for name in os.listdir(folder)]
        expect("modes", {os.stat(file).st_mode & 0o777 for file in files}, {0o666 & ~mask})


def main():
    """Each of them, in a folder of its own."""
    messages = made(60)
    for message in messages:
        if message.by == message.to == message.subject == b"":
            message.subject = b"x"
    for trial in (try_two_jam, try_begun, try_two_msg, try_zeros, try_alone, try_links, try_left, try_modes):
        with tempfile.TemporaryDirectory() as place:
            trial(place, os.path.join(place, "base"), messages[:20])
    print("readers.py: exports beside each other, and after power cuts and links")


if __name__ == "__main__":
    main()
