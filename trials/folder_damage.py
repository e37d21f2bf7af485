"""Damages base folders, and runs each command on them.

1. A small folder has a purged message, a scanned one and one that waits. Each byte of each file is changed in turn,
   in three ways. `list` and `convert` work or end with one fault line. They read no message under a new key, except
   the tag of a message whose own bytes were changed. A command that changes the folder works or ends with one fault
   line.
2. Folders with a random byte changed, bytes cut off or added, or a file removed. Each command ends in the same way.
3. Two messages with one id, of which one moves to the area of the other. `list` prints both. `convert` ends with F3,
   before any fault of the new base, and leaves nothing.

Arguments: which bytes are changed, each (1), each second (2) and so on; how many folders are damaged at random (300).
"""
import os
import random
import sys
import tempfile

from lib import making
from lib.contents import content_of, write
from lib.folder_station import (COMMANDS, MOMENT, converted, copy_of, expect, filled_station, finish, is_orderly,
                            new_station, run)


def small_station(folder):
    """A station whose base folder has three messages: a purged one, a scanned one, and one that waits, without an id."""
    new_station(folder)
    os.mkdir(os.path.join(folder, "base"))
    scan = ("scan", "--at", MOMENT, "links", "base", "out")
    plain = making.text(b"TEST", [b"No id", b" * Origin: Two (1:10/2)"], [(10, 1), (10, 2)], [(10, 2)])
    write(os.path.join(folder, "last.pkt"), making.packet(
        making.UPLINK, making.OWN, [making.packed(making.UPLINK, making.OWN, plain)]))
    for number in (0, 1):
        write(os.path.join(folder, "%d.pkt" % number), making.plain_packet([number], 20))
    write(os.path.join(folder, "new.pkt"), making.plain_packet(range(1, 4), 20))
    for words in (("toss", "links", "base", "0.pkt"), scan, ("purge", "links", "base"), ("toss", "links", "base", "1.pkt"),
                  scan, ("toss", "links", "base", "last.pkt")):
        ended = run(folder, *words)
        expect("%s: %r" % (words, ended), ended[0] == 0)
    return folder


def keys_in(base):
    """What distinguishes the messages of a base file: tag and id, or else all but SEEN-BY and PATH."""
    keys = []
    for first, _, names, tag, body in making.read_base(base)[1]:
        if first in (2, 3):
            keys.append((tag, body))
            continue
        lines = body.split(b"\r")
        ids = [line[len(b"\x01MSGID: "):] for line in lines if line.startswith(b"\x01MSGID: ")]
        kept = [line for line in lines[1:] if not line.startswith((b"SEEN-BY:", b"\x01PATH:"))]
        keys.append((lines[0][len(b"AREA:"):], ids[0] if ids else (tuple(names), tuple(kept))))
    return keys


def listed_ids(ended):
    """The ids of the messages that `list` printed."""
    return [line[len(b"line \\x01MSGID: "):] for line in ended[1].split(b"\n") if line.startswith(b"line \\x01MSGID: ")]


def read_spoiled(what, place, name, keys):
    """Reads a folder with one damaged file. No message has another key, except for a tag if that file has the
    messages. Returns whether the folder could be read."""
    known = {key[1] for key in keys}
    ended = run(place, "list", "base")
    expect("%s: list, %r" % (what, ended), is_orderly(ended))
    strange = [line for line in listed_ids(ended) if line not in known]
    expect("%s: listed under other ids %r" % (what, strange), not strange)
    base = converted(place)
    if isinstance(base, bytes):
        others = [key for key in keys_in(base) if key not in keys and not (name.startswith("messages.") and key[1] in known)]
        expect("%s: under other keys %r" % (what, others), not others)
    else:
        # Each message by itself may be valid where all of them are not.
        expect("%s: convert, %r" % (what, base), is_orderly(base) and ended[0] in (0, base[0]))
    return ended[0] == 0


def change_spoiled(what, place, commands):
    """Runs commands on a damaged folder."""
    for words in (*commands, ("list", "base")):
        ended = run(place, *words)
        expect("%s: %s, %r" % (what, words[0], ended), is_orderly(ended))


def each_byte(step, folder):
    """Changes each byte of a small folder."""
    station = small_station(os.path.join(folder, "small"))
    keys, commands = keys_in(converted(station)), list(COMMANDS.values())
    number = answers = 0
    for name in sorted(os.listdir(os.path.join(station, "base"))):
        content = content_of(os.path.join(station, "base", name))
        for at in range(0, len(content), step):
            for change in (0x01, 0x20, 0xff):
                what = "byte %d of %s changed by %02x" % (at, name, change)
                place = copy_of(station, os.path.join(folder, "place"))
                write(os.path.join(place, "base", name), content[:at] + bytes([content[at] ^ change]) + content[at + 1:])
                answers += read_spoiled(what, place, name, keys)
                change_spoiled(what, place, [commands[number % len(commands)]])
                number += 1
    print("%d bytes changed, each in three ways, and %d folders read" % (number // 3, answers), flush=True)


def by_chance(count, folder):
    """Damages folders at random."""
    chance = random.Random("damaged")
    station = filled_station(os.path.join(folder, "damaged"))
    keys = keys_in(converted(station))
    for _ in range(count):
        # The copy lacks the note of the folder of packets.
        place = copy_of(station, os.path.join(folder, "place"))
        name = chance.choice(sorted(os.listdir(os.path.join(place, "base"))))
        path = os.path.join(place, "base", name)
        content = bytearray(content_of(path))
        at = chance.randrange(len(content) + 1)
        deed = chance.choice(("change", "cut", "add", "remove"))
        if deed == "change" and content:
            content[at % len(content)] ^= chance.randrange(1, 256)
        elif deed == "cut":
            del content[at:at + chance.choice((1, 16, 1 << 20))]
        elif deed == "add":
            content[at:at] = bytes(chance.randrange(256) for _ in range(chance.choice((1, 16, 100))))
        if deed == "remove":
            os.remove(path)
        else:
            write(path, bytes(content))
        what = "%s at %d of %s" % (deed, at, name)
        read_spoiled(what, place, name, keys)
        change_spoiled(what, place, [("export", "base"), *COMMANDS.values()])
    print("%d folders spoiled by chance" % count, flush=True)


def one_key(folder):
    """Moves a message to the area of another one with its id."""
    place = os.path.join(folder, "one_key")
    for name in ("base", "new"):
        os.makedirs(os.path.join(place, name))
    messages = [making.stored(1, making.UPLINK, making.whole_body(making.arrived(serial, 20, tag)))
                for serial, tag in ((1, b"TEST"), (2, b"ECHO"), (1, b"ECHO"), (3, b"TEST"))]
    write(os.path.join(place, "file"), making.base(1, messages))
    ended = run(place, "convert", "file", "base")
    expect("a base with one id in two areas: %r" % (ended,), ended[0] == 0)
    path = os.path.join(place, "base", "messages.0")
    before, after = content_of(path).rsplit(b"AREA:ECHO", 1)
    write(path, before + b"AREA:TEST" + after)
    ended = run(place, "list", "base")
    expect("both are listed: %r" % (ended,), ended[0] == 0 and len(listed_ids(ended)) == 4)
    for to in ("made", "new", "file", "missing/made"):
        ended = run(place, "convert", "base", to)
        expect("to %s: %r" % (to, ended), ended == (2, b"", b"echonet: F3 Damaged record 2\n"))
    left = sorted(os.listdir(place)) + os.listdir(os.path.join(place, "new"))
    expect("nothing is left: %r" % (left,), left == ["base", "file", "new"])


def main(words):
    """All of it."""
    step = int(words[0]) if words else 1
    count = int(words[1]) if len(words) > 1 else 300
    with tempfile.TemporaryDirectory(prefix="echonet-trials.") as folder:
        each_byte(step, folder)
        by_chance(count, folder)
        one_key(folder)
    return finish("folder_damage")


if __name__ == "__main__":
    sys.exit(main(sys.argv[1:]))
