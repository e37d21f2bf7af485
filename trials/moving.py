"""Moves a station of CrashMail II to echonet with tools, and back, by the commands in docs/INTEROP.md.

CrashMail tosses packets that are made here, with some messages twice, and postings of crashwrite. It files them in a
JAM base and in a folder of *.MSG. The base of the new station has to have each message once, in that order, with its
names, date, subject and lines. Late copies are known. Then CrashMail gets all messages back, and also knows late
copies. Argument: how many messages an area has.
"""
import os
import random
import shutil
import struct
import subprocess
import sys
import tempfile
import time

from lib import making, reading
import stored
from lib.contents import PROGRAM, TOP, read, write
from jam import crashmail_settings
from readers import expect

MOVE = os.path.join(TOP, "tools")
OWN, LINKS, NOBODY = (1, 10, 2), ((1, 10, 1), (1, 10, 3)), (1, 10, 30000)
AREAS = (b"JTEST", b"MTEST")
LETTERS = b"abcXYZ 019 .,:;<>()@[]=?_\"\\'-" + bytes(range(128, 256))


def commands(section):
    """The commands of a section of docs/INTEROP.md, from its list."""
    text = read(os.path.join(TOP, "docs", "INTEROP.md")).decode().split("\n## %s\n" % section)[1].split("\n## ")[0]
    return "\n".join(line[7:] for line in text.split("\n") if line.startswith(" " * 7))


def some(chance, most):
    """Bytes of a name, a subject or a line."""
    return bytes(chance.choice(LETTERS) for _ in range(int(most * chance.random() ** 2)))


class Mail:
    """A message that a link sends: its link, its names, date, subject and kept lines. One of ten has no id."""

    def __init__(self, chance, number, before):
        self.link = chance.choice(LINKS)
        form = chance.choice((b"1:10/1 %08x", b"1:10/1.5@fidonet %08X", b"2:5020/100  %08x", b"\"a \"\"b\"\" c\" %08x"))
        self.id = form % number if chance.random() < 0.9 else None
        self.to, self.by, self.subject = (some(chance, most) for most in (35, 35, 71))
        self.date = time.strftime("%d %b %y  %H:%M:%S", time.gmtime(chance.randrange(315532800, 3471292800))).encode()
        ids = [mail.id for mail in before if mail.id]
        control = [b"REPLY: " + chance.choice(ids)] if ids and chance.random() < 0.5 else []
        control += chance.sample([b"CHRS: CP437 2", b"PID: x 1.0 beta", b"TZUTC: 0300", b"TID: y", b"Via 1:10/1"], chance.randrange(4))
        control += [b"MSGID: " + self.id] if self.id else [b"NOTE: %d" % number]
        chance.shuffle(control)
        body = [some(chance, chance.choice((0, 70, 300))) for _ in range(chance.randrange(6))] + [b"\t> x"]
        self.kept = [b"\x01" + line for line in control] + body + [b"--- x", b" * Origin: %d (1:10/1)" % number]
        self.path = [(10, self.link[2])]

    def fields(self):
        """The lines that have to stay."""
        return self.date, self.to, self.by, self.subject, self.kept

    def packed(self, tag):
        """As its link sends it."""
        text = making.text(tag, self.kept, making.pairs([self.link, OWN]), self.path)
        return making.packed(self.link, OWN, text, self.to, self.by, self.subject, self.date + b"\0")


class Posting:
    """A message that crashwrite makes, as its packet has it."""

    def __init__(self, content):
        (message,), fault, _ = reading.read_packet(content, reading.MOST_SHOWN)
        expect("crashwrite", fault, None)
        echo = reading.read_text(message.text)
        self.link, self.path, self.id = OWN, [], reading.first_id(echo.kept)
        self.date, self.kept = message.date[:19], echo.kept
        self.to, self.by, self.subject = message.to, message.by, message.subject

    fields = Mail.fields
    packed = Mail.packed


def run(place, script, status=0):
    """Runs commands in a folder, and answers what they print."""
    environment = {**os.environ, "TZ": "UTC", "PATH": "%s:%s:%s" % (MOVE, os.path.join(place, "bin"), os.environ["PATH"])}
    done = subprocess.run(["sh", "-c", script], cwd=place, env=environment, stdout=subprocess.PIPE, stderr=subprocess.PIPE,
                          check=False)
    expect("%s: %s" % (script, done.stderr.decode("latin-1")), done.returncode, status)
    return done.stdout.decode("latin-1").splitlines(), done.stderr.decode("latin-1").splitlines()


def settings(folder):
    """A configuration of CrashMail with both areas."""
    areas = "".join('AREA "%s" 1:10/2 %s "%s/bases/%s"\nEXPORT 1:10/1 3 .7\n' % (tag, kind, folder, tag.lower())
                    for tag, kind in (("JTEST", "JAM"), ("MTEST", "MSG")))
    return crashmail_settings(folder, "1:10/2", ["1:10/1", "1:10/3", "1:10/3.7"]) + areas


def packets_of(mails):
    """Packets of some messages of all areas, one for each link: the link and the bytes."""
    for link in LINKS:
        yield link, making.packet(link, OWN, [mail.packed(tag) for tag in AREAS for mail in mails[tag] if mail.link == link])


def bring(place, packets, number=16):
    """Puts packets into CrashMail's inbound folder."""
    for link, content in packets:
        write("%s/inbound/%07x%d.pkt" % (place, number, link[2]), content)


def post(place, tag, number):
    """A posting by crashwrite, tossed by CrashMail. Each takes the second as its name."""
    time.sleep(1.1)
    write(place + "/body", b"Posted %d\nby crashwrite\n" % number)
    run(place, 'crashwrite DIR write AREA %s TONAME All TOADDR 1:10/2 FROMNAME Bob FROMADDR 1:10/2 SUBJECT "P %d" ORIGIN Two '
        "TEXT body" % (tag.decode(), number))
    name, = os.listdir(place + "/write")
    posting = Posting(read(place + "/write/" + name))
    run(place, "crashmail SETTINGS crashmail.prefs TOSSDIR write NOSECURITY")
    return posting


def fill(chance, place, count):
    """Has CrashMail fill its bases. Returns the messages of each area in the order in which it files them."""
    mails = {tag: [] for tag in AREAS}
    for tag in AREAS:
        for number in range(count):
            mails[tag].append(Mail(chance, number, mails[tag]))
    bring(place, packets_of(mails))
    run(place, "crashmail SETTINGS crashmail.prefs TOSS")
    late = {tag: chance.sample([mail for mail in mails[tag] if mail.id], count // 10) for tag in AREAS}
    bring(place, packets_of(late))
    run(place, "crashmail SETTINGS crashmail.prefs TOSS")
    expect("late copies in the area BAD", len(os.listdir(place + "/bad")), 2 * (count // 10))
    filed = {tag: [mail for link in LINKS for mail in mails[tag] if mail.link == link] for tag in AREAS}
    for number in range(3):
        for tag in AREAS:
            filed[tag].append(post(place, tag, number))
    return filed


def check_links(place):
    """The link file and the list of bases, also from AREAS.BBS as crashexport writes it, and from hpt's lines."""
    wanted = ["SYSTEM 1:10/2", "AREA JTEST 1:10/1 1:10/3", "AREA MTEST 1:10/1 1:10/3"]
    bases = ["JTEST jam %s/bases/jtest" % place, "MTEST msg %s/bases/mtest" % place]
    run(place, "crashexport crashmail.prefs areas.bbs AREASBBS")
    bad = ["links-from: areas for bad mail and defaults: 1, first 'BAD'"]
    point = ["links-from: points: 1, first 1:10/3.7"]
    for form in ("crashmail 1:10/2 crashmail.prefs", "areas.bbs 1:10/2 areas.bbs"):
        expect(form, run(place, "links-from " + form), (wanted, bad + point))
        expect(form, run(place, "links-from --bases " + form)[0], bases)
    write(place + "/short.bbs", b"A title ! Bob\r\n; a note\r\n!bases/jtest jtest 1 3 .7\r\nbases/m MTEST 10/1 1:10/3 3\r\n"
          b"#X OTHER 20/5 6 2:5020/7 x\r\n\x1a")
    expect("short addresses", run(place, "links-from areas.bbs 1:10/2 short.bbs"),
           (wanted + ["AREA OTHER 1:20/5 1:20/6 2:5020/7"], point + ["links-from: links that are not understood: 1, first 'x' in OTHER"]))
    write(place + "/hpt", b"""Address 1:10/2@fidonet
EchoAreaDefaults -b Jam -lr 10
EchoArea JTEST bases/jtest -d "of 2:5020/9 \x85" -dupecheck del 1:10/1 -r 1:10/3.7 1:10/3@fidonet # 1:10/8
EchoAreaDefaults off
EchoArea MTEST bases/m -g A -sbadd(5030/1 2) 1:10/1 1:10/3 -def
EchoArea ELSE bases/else -a 2:5020/2 2:5020/1
EchoArea ALL passthrough 1:*/*
LocalArea HERE bases/here
""")
    expect("hpt", run(place, "links-from hpt 1:10/2 hpt"), (
        wanted + ["AREA ALL"],
        ["links-from: links in one way there, in both ways here: 1, first 1:10/1 of JTEST, read-only",
         "links-from: areas of another own address (--aka writes them): 1, first 'ELSE' of 2:5020/2"] + point +
        ["links-from: links that are not understood: 1, first '1:*/*' in ALL"]))
    expect("hpt", run(place, "links-from --bases hpt 1:10/2 hpt")[0], ["JTEST jam bases/jtest", "MTEST msg bases/m"])


def check_base(place, filed):
    """The base has all messages of the areas, in their order, and nothing waits."""
    run(place, "rm -f file && echonet convert base file")
    cursor, messages = making.read_base(read(place + "/file"))
    mails = [(tag, mail) for tag in AREAS for mail in filed[tag]]
    expect("messages, and those that were scanned", (len(messages), cursor), (len(mails), len(mails)))
    content = read(place + "/file")
    for (tag, mail), (first, sender, names, _, body) in zip(mails, messages):
        echo = reading.read_text(body)
        expect("a message", (first, sender, names, echo.tag, echo.kept), (1, NOBODY, [mail.to, mail.by, mail.subject], tag, mail.kept))
        expect("its date", content.count(mail.date + b"\0" + bytes([len(mail.to)]) + mail.to) > 0, True)
        expect("its PATH", echo.path, mail.path + [(10, 2)])
        expect("its SEEN-BY", echo.seen, {(10, 1), (10, 2), (10, 3)})


def tossed(place, packets):
    """The output of tosses of packets of links, under the real link file."""
    lines = []
    for _, content in packets:
        write(place + "/late", content)
        lines += run(place, "echonet toss links base late")[0]
    return lines


def told(filed, known):
    """The line of a toss."""
    return "filed %d known %d notecho 0 badtag 0 noarea 0 notlinked 0" % (filed, known)


def check_late(chance, place, filed):
    """Late copies are known, and new mail is passed on."""
    expect("late copies", tossed(place, packets_of(filed)),
           [told(0, sum(mail.link == link for tag in AREAS for mail in filed[tag])) for link in LINKS])
    new = Mail(chance, 1 << 20, [])
    new.link, new.path = LINKS[0], [(10, 1)]
    expect("new mail", tossed(place, list(packets_of({b"JTEST": [new], b"MTEST": []}))[:1]), [told(1, 0)])
    expect("is sent", [line.split()[:4] for line in run(place, "mkdir out && echonet scan --at now links base out")[0]],
           [["packet", "1:10/3", "1", "messages"]])
    filed[b"JTEST"].append(new)


def check_linked(place, mails):
    """The fields that CrashMail changes when it links replies are recovered, except dates."""
    folder = place + "/linked"
    os.makedirs(folder + "/bases/mtest")
    write(folder + "/crashmail.prefs", (settings(folder) + "JAM_LINK\n").encode())
    bring(folder, packets_of(mails))
    run(folder, "crashmail SETTINGS crashmail.prefs TOSS")
    run(folder, "jam-to-packets 1:10/30000 1:10/2 JTEST bases/jtest > linked")
    messages = [reading.read_packet(read(path), reading.MOST_SHOWN)[0] for path in (place + "/whole", folder + "/linked")]
    expect("linked", [message[2:] for message in messages[1]], [message[2:] for message in messages[0][:len(messages[1])]])
    expect("linked", len(messages[1]), len(mails[b"JTEST"]))


def check_damaged(place, count):
    """Deleted and damaged messages of a JAM base, and one that was never sent, are counted. The rest is imported."""
    words = "jam-to-packets 1:10/30000 1:10/2 JTEST bases/"
    whole = run(place, words + "jtest > whole")[1]
    expect("whole", whole, ["JTEST: %d messages" % count])
    for ending in (".jhr", ".jdt", ".jdx"):
        shutil.copy(place + "/bases/jtest" + ending, place + "/bases/bad" + ending.upper())
    headers, index = bytearray(read(place + "/bases/bad.JHR")), read(place + "/bases/bad.JDX")
    places = [at for _, at in struct.iter_unpack("<2I", index)]
    struct.pack_into("<I", headers, places[3] + 52, 1 << 31)
    struct.pack_into("<I", headers, places[5] + 52, 1)
    struct.pack_into("<I", headers, places[7] + 60, 1 << 30)
    struct.pack_into("<I", headers, places[9] + 80, 1 << 30)
    headers[places[11]] = 0
    write(place + "/bases/bad.JHR", bytes(headers))
    write(place + "/bases/bad.JDX", index + b"\xff" * 8 + b"\0" * 3)
    expect("counts", run(place, words + "bad > spoilt", 1)[1],
           ["JTEST: %d messages, 1 deleted, left out, 1 never sent by the old tosser, 3 damaged, left out" % (count - 4)])
    messages = [reading.read_packet(read(place + "/" + name), reading.MOST_SHOWN)[0] for name in ("whole", "spoilt")]
    left = [message[1:] for number, message in enumerate(messages[0]) if number not in (3, 7, 9, 11)]
    expect("the rest", [message[1:] for message in messages[1]], left)
    head = struct.pack("<36s36s72s20s13H", b"Ann", b"All", b"Mark", b"", *[0] * 11, 256, 0)
    os.makedirs(place + "/marked")
    for name, content in (("1.msg", head + b"x\0"), ("3.MSG", head + b"AREA:X\r\x01MSGID: 1:10/2 1\rx\0"), ("4.msg", b"x")):
        write(place + "/marked/" + name, content)
    expect("a mark", run(place, "msg-to-packets 1:10/30000 1:10/2 T marked > marked.pkt", 1)[1],
           ["T: 1 messages, 1 of a high-water mark, left out, 1 never sent by the old tosser, 1 damaged, left out"])


def check_back(place, filed):
    """CrashMail has all messages again, and knows late copies. Our JAM base makes the same packet as the folder."""
    run(place, "rm dupes bad/*")
    write(place + "/moving.prefs", crashmail_settings(place, "1:10/2", ["1:10/1", "1:10/3", "1:10/30000"]).encode())
    run(place, commands("Moving to another tosser").replace("/home/fido/msg", place + "/back"))
    for tag in AREAS:
        folder = "%s/back/%s" % (place, tag.decode().lower())
        files = [stored.Stored(read("%s/%d.msg" % (folder, number))) for number in range(2, len(os.listdir(folder)) + 2)]
        expect("given back", len(files), len(filed[tag]))
        for mail, file in zip(filed[tag], files):
            kept = reading.read_text(b"AREA:" + tag + b"\r" + file.text).kept
            expect("a message", (file.date[:19], file.to, file.by, file.subject, kept), mail.fields())
    run(place, """echonet export --jam back.jam --area JTEST base
        jam-to-packets 1:10/30000 1:10/2 JTEST back.jam > jam.pkt
        msg-to-packets 1:10/30000 1:10/2 JTEST back.1 > msg.pkt""")
    expect("by JAM", read(place + "/jam.pkt")[58:], read(place + "/msg.pkt")[58:])
    known = {tag: [mail for mail in filed[tag] if mail.id and mail.link != OWN] for tag in AREAS}
    bring(place, packets_of(known))
    run(place, "sed -i 's,1:10/30000$,1:10/1 1:10/3,' moving.prefs && crashmail SETTINGS moving.prefs TOSS")
    expect("late copies in the area BAD", len(os.listdir(place + "/bad")), sum(len(known[tag]) for tag in AREAS))


def main():
    """The stations are in one folder."""
    count = int(sys.argv[1]) if len(sys.argv) > 1 else 300
    if not shutil.which("crashmail"):
        print("moving.py: there is no CrashMail here")
        return
    seed = int(os.environ.get("SEED", random.randrange(2 ** 32)))
    print("seed %d" % seed)
    chance = random.Random(seed)
    with tempfile.TemporaryDirectory() as place:
        os.makedirs(place + "/bin")
        os.symlink(os.path.abspath(PROGRAM), place + "/bin/echonet")
        write(place + "/crashmail.prefs", settings(place).encode())
        for folder in ("bases/mtest", "back/jtest", "back/mtest", "write"):
            os.makedirs(place + "/" + folder)
        filed = fill(chance, place, count)
        check_links(place)
        check_damaged(place, count + 3)
        check_linked(place, {tag: filed[tag][:count] for tag in AREAS})
        run(place, commands("Moving a system from another tosser"))
        check_base(place, filed)
        check_late(chance, place, filed)
        check_back(place, filed)
    print("moving.py: %d messages of CrashMail taken over and given back" % (2 * count + 7))


if __name__ == "__main__":
    main()
