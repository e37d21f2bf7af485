"""What happens to commands that wait, and to a scan into a folder without hard links, on a base file and on a base
folder.

1. 400 postings by 20 processes while the link file is replaced by another one: each that ended with 0 is there.
   Then the first eight postings of a station, 40 times. There is no base file yet, and the lock of its folder keeps
   others out. Runs wait for that lock, and then add to the existing base. Another base of the folder waits too.
2. Commands wait for the lock while the base is converted to the other kind. Then they use the new base.
3. A scan into a folder without hard links is refused, and changes nothing. The next one into a good folder does all.
   With strace the call is refused. If a file system without hard links can be mounted it is tried too.
4. Staging files of stopped runs and power cuts are removed, whatever their contents. What is no regular file of
this
   user stays, and is a fault.
Arguments: which of them (replaced begun turned no_links left), by default all.
"""
import fcntl
import os
import shutil
import subprocess
import sys
import tempfile
import threading
import time

from lib.contents import PROGRAM, write
from lib.judge import LINKS, Judge, Message, content, files_of, packet_of, texts_of

TRIED = []


def new_station(work, name, is_folder):
    """The folder of a station without messages."""
    folder = os.path.join(work, name)
    os.makedirs(os.path.join(folder, "out"))
    if is_folder:
        os.mkdir(os.path.join(folder, "base"))
    with open(os.path.join(folder, "links"), "wb") as file:
        file.write(LINKS)
    return folder


def do(judge, folder, what, messages=(), wanted=0):
    """Runs a command of a station."""
    words, given = judge.words(what, messages, "%d.pkt" % (messages[0].serial if messages else 0))
    return judge.run(folder, PROGRAM, *words, given=given, wanted=wanted)


def post_replaced(judge, folder, messages, count):
    """Postings by so many processes while the link file is replaced."""
    done, end = [], threading.Event()

    def post_some(some):
        done.extend(message for message in some if do(judge, folder, "post", [message]) == 0)

    def replace():
        number = 0
        while not end.wait(0.002):
            number += 1
            with open(os.path.join(folder, "links.new"), "wb") as file:
                file.write(b"; %d\n" % number + LINKS)
            os.rename(os.path.join(folder, "links.new"), os.path.join(folder, "links"))

    threads = [threading.Thread(target=post_some, args=(messages[first::count],)) for first in range(count)]
    replacing = threading.Thread(target=replace)
    for thread in [replacing, *threads]:
        thread.start()
    for thread in threads:
        thread.join()
    end.set()
    replacing.join()
    judge.texts("postings while the link file is replaced", texts_of(os.path.join(folder, "base")), done, messages)


def try_replaced(judge, folder):
    """Postings while the link file is replaced."""
    post_replaced(judge, folder, [Message("post", serial, 80) for serial in range(1, 401)], 20)


def try_begun(judge, folder):
    """The first postings of stations while their link files are replaced, and while another run holds the base file's
    folder."""
    is_folder = os.path.isdir(os.path.join(folder, "base"))
    for number in range(40):
        station = new_station(folder, "station.%d" % number, is_folder)
        post_replaced(judge, station, [Message("post", serial, 80) for serial in range(1, 9)], 8)
        shutil.rmtree(station)
    if is_folder:
        return
    shutil.copy(os.path.join(folder, "links"), os.path.join(folder, "links.two"))
    lock = os.open(folder, os.O_RDONLY)
    fcntl.flock(lock, fcntl.LOCK_EX)
    posts = [(Message("post", serial, 80), end) for serial, end in ((1, ""), (2, ""), (3, ".two"))]
    threads = []
    for message, end in posts:
        words, given = judge.words("post", [message])
        words = (*words[:-2], "links" + end, "base" + end)
        threads.append(threading.Thread(target=judge.run, args=(folder, PROGRAM, *words), kwargs={"given": given}))
        threads[-1].start()
        time.sleep(0.3)
        shutil.copy(os.path.join(folder, "links"), os.path.join(folder, "links.new"))
        os.rename(os.path.join(folder, "links.new"), os.path.join(folder, "links"))
    judge.expect("a first posting does not wait for the folder", all(thread.is_alive() for thread in threads))
    os.close(lock)
    for thread in threads:
        thread.join()
    for end in ("", ".two"):
        mine = [message for message, other in posts if other == end]
        judge.texts("first postings that waited", texts_of(os.path.join(folder, "base" + end)), mine, mine)


def try_turned(judge, folder):
    """Commands that wait while the base is converted to the other kind, and then back."""
    base, new = (os.path.join(folder, name) for name in ("base", "new"))
    done = [Message("post", 1, 80)]
    do(judge, folder, "post", done)
    for turn in (0, 1):
        commands = [("post", [Message("post", 10 + turn, 80)]), ("toss", [Message("toss", 20 + turn, 80)]), ("scan", []), ("purge", [])]
        lock = os.open(os.path.join(folder, "links"), os.O_RDONLY)
        fcntl.flock(lock, fcntl.LOCK_EX)
        threads = [threading.Thread(target=do, args=(judge, folder, *command)) for command in commands]
        for thread in threads:
            thread.start()
        time.sleep(0.5)
        if not os.path.isdir(base):
            os.mkdir(new)
        judge.run(folder, PROGRAM, "convert", "base", "new")
        os.rename(base, base + ".old.%d" % turn)
        os.rename(new, base)
        os.close(lock)
        for thread in threads:
            thread.join()
        done += commands[0][1] + commands[1][1]
        judge.texts("commands that waited while the base was turned", texts_of(base), done, done)
    do(judge, folder, "scan")
    judge.packets("commands that waited", files_of(os.path.join(folder, "out"), ".pkt"), done, done)


def state_of(path):
    """The files of a base and their bytes, without the note of the folder of packets."""
    if not os.path.isdir(path):
        return content(path)
    return {name: found for name, found in files_of(path, "").items() if name != "outbound"}


def try_scan(judge, folder, where, before, messages):
    """A scan that is refused, since its folder has no hard links."""
    base, out = state_of(os.path.join(folder, "base")), os.path.join(folder, where)
    words, _ = judge.words("scan", [])
    ended = subprocess.run([*before, PROGRAM, *words[:-1], where], cwd=folder, capture_output=True, check=False)
    judge.expect("a scan without hard links: %r" % (ended,),
                 (ended.returncode, ended.stderr) == (3, b"echonet: cannot use %s\n" % where.encode()))
    judge.expect("a scan without hard links changes the base", state_of(os.path.join(folder, "base")) == base)
    judge.expect("a scan without hard links leaves %s" % os.listdir(out), not os.listdir(out))
    TRIED.append(where)
    do(judge, folder, "scan")
    judge.packets("after a scan without hard links", files_of(os.path.join(folder, "out"), ".pkt"), messages, messages)


def try_no_links(judge, folder):
    """Scans into folders without hard links."""
    messages = [Message("post", serial, 80) for serial in (1, 2)] + [Message("toss", serial, 80) for serial in (3, 4)]
    for message in messages[:2]:
        do(judge, folder, "post", [message])
    do(judge, folder, "toss", messages[2:])
    if shutil.which("strace"):
        for error in ("EPERM", "EOPNOTSUPP", "EMLINK", "ENOSYS"):
            os.makedirs(os.path.join(folder, error))
            message = Message("post", 100 + len(TRIED), 80)
            do(judge, folder, "post", [message])
            messages.append(message)
            try_scan(judge, folder, error, ("strace", "-qq", "-o", "/dev/null", "-e", "inject=link,linkat:error=" + error), messages)
    image, disk = os.path.join(folder, "image"), os.path.join(folder, "vfat")
    path = os.environ.get("PATH", "") + ":/usr/sbin:/sbin"
    if os.geteuid() or not shutil.which("mkfs.vfat", path=path):
        print("no vfat can be made: it is not tried")
        return
    os.makedirs(disk)
    subprocess.run(["mkfs.vfat", "-C", image, "2048"], check=True, stdout=subprocess.DEVNULL, env={**os.environ, "PATH": path})
    if subprocess.run(["mount", "-o", "loop", image, disk], stderr=subprocess.DEVNULL, check=False).returncode:
        print("no vfat can be mounted: it is not tried")
        return
    try:
        messages.append(Message("post", 200, 80))
        do(judge, folder, "post", messages[-1:])
        try_scan(judge, folder, "vfat", (), messages)
    finally:
        subprocess.run(["umount", disk], check=True)


def try_left(judge, folder):
    """Files with the staging names of this station."""
    own, packets = "base.~1.10.1~.new", ["1.10.%d.%d.pkt.~1.10.1~.new" % name for name in ((2, 0), (3, 0), (2, 7), (9, 0))]
    whole = packet_of([Message("toss", 1, 80)])
    number, messages, is_folder = 0, [], os.path.isdir(os.path.join(folder, "base"))
    for left in (b"", bytes(300), bytes(9000), b"precious", whole[:40], whole[:100], whole + bytes(4096)):
        number += 1
        messages.append(Message("post", number, 80))
        copy = "copy.%d" % number
        for name in [] if is_folder else [own]:
            write(os.path.join(folder, name), left)
        do(judge, folder, "post", messages[-1:])
        for name in packets:
            write(os.path.join(folder, "out", name.replace(".0.", ".%d." % (number - 1)).replace(".7.", ".%d." % (number + 6))), left)
        do(judge, folder, "scan")
        write(os.path.join(folder, copy + ".~base~.new"), left)
        judge.run(folder, PROGRAM, "convert", "base", copy)
        judge.texts("a copy beside what was left", texts_of(os.path.join(folder, copy)), messages, messages)
        stays = [name for place in ("", "out") for name in files_of(os.path.join(folder, place), ".new")]
        judge.expect("of %r stays %s" % (left[:20], stays), not stays)
        for name in stays:
            for place in ("", "out"):
                if os.path.exists(os.path.join(folder, place, name)):
                    os.remove(os.path.join(folder, place, name))
    judge.packets("beside what was left", files_of(os.path.join(folder, "out"), ".pkt"), messages, messages)
    for deed in (os.mkdir, lambda path: os.symlink("links", path), os.mkfifo) + ((others,) if os.geteuid() == 0 else ()):
        for what, path in (("post", own), ("scan", "out/1.10.2.%d.pkt.~1.10.1~.new" % number)):
            if what == "scan" or not is_folder:
                deed(os.path.join(folder, path))
                before = os.lstat(os.path.join(folder, path))
                do(judge, folder, what, [Message("post", 100, 80)] if what == "post" else [], 3)
                is_there = os.path.lexists(os.path.join(folder, path))
                judge.expect("%s does not stay" % path, is_there and os.lstat(os.path.join(folder, path)).st_ino == before.st_ino)
                if is_there:
                    (os.rmdir if deed is os.mkdir else os.remove)(os.path.join(folder, path))


def others(path):
    """Makes a file of another user."""
    write(path, b"precious")
    os.chown(path, 65534, 65534)


def main(words):
    """Each of them, or the named ones, with both kinds of bases."""
    count = 0
    for trial in (try_replaced, try_begun, try_turned, try_no_links, try_left):
        for is_folder in (False, True) if not words or trial.__name__[4:] in words else ():
            with tempfile.TemporaryDirectory(prefix="echonet-unlucky.") as work:
                judge = Judge(work)
                trial(judge, new_station(work, "station", is_folder))
            what = "%s, base %s" % (trial.__name__[4:], "folder" if is_folder else "file")
            for fault in judge.faults[:6]:
                print("failed: %s: %s" % (what, fault), file=sys.stderr)
            print("%s: %d faults" % (what, len(judge.faults)), flush=True)
            count += len(judge.faults)
    print("unlucky.py: 1,443 postings beside replaced link files, 16 commands beside a base that is turned, %d scans without hard links, "
          "84 files left beside, %d faults" % (len(TRIED), count))
    return 1 if count else 0


if __name__ == "__main__":
    sys.exit(main(sys.argv[1:]))
