"""The laws of small inputs, judged from outside: how the program ends, its output compared with what reading.py
reads, and laws between its runs. Each function takes a trial, whose folder has the input, and notes what did not
hold.

- reading.py reads the same as the program from a packet or a base: fault and place or record, places of messages,
  texts, counts of a toss, and the base after a posting byte for byte.
- A packet tossed again files nothing and leaves the base unchanged, also after a purge. Filed messages are scanned,
  `show` counts what `scan` counted, and the link files all of it. A second scan makes nothing. A second purge changes
  nothing.
- A base of version 2 that is loaded and saved has the same bytes. A faulty base stays unchanged.
- A nodelist is printed the same twice, its checksum is Python's, and `--find` names what the list names.
- `links --areas` lists what reading.py finds. `check --all` prints what `check` prints of each area.
- `check` and `picture` end with the same status, and the picture of a yes has nothing red. On a tidy net a replay
files
  at each system at most what was posted, and the same everywhere after the net has settled.
"""
import binascii
import os
import re
import shutil

from lib import making, reading
from lib.contents import content_of, write

TALLY = re.compile(rb"filed (\d+) known (\d+) notecho (\d+) badtag (\d+) noarea (\d+) notlinked (\d+)\n")
PACKET_LINE = re.compile(rb"packet (\S+) (\d+) messages (\d+) bytes\n")
EMPTY_TALLY = b"filed 0 known 0 notecho 0 badtag 0 noarea 0 notlinked 0\n"
MOST_KILOBYTES = 65_536
LINKS = {making.OWN: (making.UPLINK, *making.DOWNLINKS), **{link: (making.OWN,) for link in making.DOWNLINKS}}


class Trial:
    """One input in a folder of its own, and what did not hold of it."""

    def __init__(self, runner, examples):
        self.runner, self.examples, self.failures = runner, examples, []

    def path(self, name):
        """The path of a file of this trial."""
        return os.path.join(self.runner.folder, name)

    def put(self, name, content):
        """Writes a file."""
        return write(self.path(name), content)

    def get(self, name):
        """The bytes of a file, or None."""
        return content_of(self.path(name))

    def drop(self, *names):
        """Removes files."""
        for name in names:
            if os.path.exists(self.path(name)):
                os.remove(self.path(name))

    def holds(self, what, it):
        """Notes what does not hold."""
        if not it:
            self.failures.append(what)
        return it

    def run(self, *words, given=os.devnull, most=3):
        """Runs the program, which has to end without a crash and within its memory."""
        ended = self.runner.run(*words, given=given)
        told = "%s: status %d, fault %r" % (words[0], ended.status, ended.fault[:200])
        self.holds(told, ended.is_orderly(most))
        self.holds("%s took %d kB" % (words[0], ended.kilobytes), ended.kilobytes < MOST_KILOBYTES)
        return ended

    def is_fault(self, ended, fault):
        """Whether it ended with this fault, as its line prints it, or with none."""
        if fault is None:
            return ended.status == 0
        return ended.status == 2 and ended.fault == b"echonet: " + fault.encode() + b"\n"


def set_up(trial):
    """The link files of the systems that pass plain messages on."""
    for system, links in LINKS.items():
        areas = [("TEST", links), ("OTHER", links)]
        trial.put("%d.links" % system[2], making.link_file(system, areas))
    trial.put("empty.pkt", making.packet(making.UPLINK, making.OWN, []))


def try_packet(trial, content):
    """A packet is shown and tossed."""
    packet = trial.put("input", content)
    shown_as_read(trial, content, trial.run("show", packet))
    trial.drop("base")
    tossed_as_read(trial, content, packet)


def shown_as_read(trial, content, shown):
    """The output of `show` for a packet, compared with what is read of it here."""
    messages, fault, size = reading.read_packet(content, reading.MOST_SHOWN)
    if not trial.holds("show: the fault is %s, not %r" % (fault, shown.fault), trial.is_fault(shown, fault)):
        return
    lines = shown.out.split(b"\n")
    begun = [line.split(b" ")[3] for line in lines if line.startswith(b"message ")]
    trial.holds("show: the places", begun == [b"%d:" % message.place for message in messages])
    if fault is None:
        trial.holds("show: the end", lines[-2] == b"end %d messages, %d bytes" % (len(messages), size))
    said = [line for line in lines if line.startswith((b"area ", b"not echomail", b"bad tag", b"seen "))]
    trial.holds("show: what texts say", said == [line for message in messages for line in said_of(message)])


def said_of(message):
    """Some of the lines that `show` prints of a text."""
    echo = reading.read_text(message.text)
    if isinstance(echo, str):
        return [echo.encode()]
    counts = (len(echo.seen), len(echo.path), echo.dropped)
    return [b"area " + echo.tag, b"seen %d path %d dropped %d" % counts]


def outcome_of(message, sender, known):
    """The result of a message at 1:10/1, by its place in a tally."""
    echo = reading.read_text(message.text)
    if isinstance(echo, str):
        return ("not echomail", "bad tag").index(echo) + 2
    if echo.tag not in (b"TEST", b"OTHER"):
        return 4
    if sender not in LINKS[making.OWN]:
        return 5
    key = reading.key_of(echo, (message.date, message.to, message.by, message.subject))
    if key in known:
        return 1
    known.add(key)
    return 0


def tally_of(content):
    """The tally of a packet at 1:10/1 with an empty base, and the fault or None."""
    try:
        sender, destination = reading.read_header(content)
    except reading.Fault as fault:
        return [0] * 6, str(fault)
    sender, destination = ((own[0] or 1, *own[1:]) for own in (sender, destination))
    if destination != making.OWN:
        return [0] * 6, "C1 NotForUs " + making.shown(destination)
    messages, fault, _ = reading.read_packet(content, len(content))
    tally, known = [0] * 6, set()
    for message in messages:
        tally[outcome_of(message, sender, known)] += 1
    return tally, fault


def tossed_as_read(trial, content, packet):
    """A packet is tossed twice, passed on, tossed at a link, purged, and tossed once more."""
    links, base = trial.path("1.links"), trial.path("base")
    tally, fault = tally_of(content)
    said = b"filed %d known %d notecho %d badtag %d noarea %d notlinked %d\n" % tuple(tally)
    again = said.replace(b"filed %d known %d" % tuple(tally[:2]), b"filed 0 known %d" % sum(tally[:2]))
    tossed = trial.run("toss", links, base, packet)
    trial.holds("toss: the fault is %s, not %r" % (fault, tossed.fault), trial.is_fault(tossed, fault))
    trial.holds("toss: %r, not %r" % (said, tossed.out), tossed.out == said)
    if tally[0] == 0:
        return
    saved = trial.get("base")
    trial.holds("toss again files nothing", trial.run("toss", links, base, packet).out == again)
    trial.holds("toss again leaves the base", trial.get("base") == saved)
    passed_on(trial, tally[0])
    trial.holds("toss after a purge files nothing", trial.run("toss", links, base, packet).out == again)


def passed_on(trial, count):
    """The waiting messages are scanned, shown, tossed at the links, and purged."""
    links, base = trial.path("1.links"), trial.path("base")
    scanned = trial.run("scan", "--at", making.STAMP, links, base, trial.runner.folder)
    trial.holds("scan ends well", scanned.status == 0)
    for address, messages, size in PACKET_LINE.findall(scanned.out):
        shown_after_scan(trial, address, int(messages), int(size))
    again = trial.run("scan", "--at", making.STAMP, links, base, trial.runner.folder)
    trial.holds("a second scan makes nothing", again.out == b"" and again.status == 0)
    purged = trial.run("purge", links, base)
    trial.holds("purge counts no more than there are", int(purged.out.split()[1]) <= count)
    trial.holds("a second purge changes nothing", trial.run("purge", links, base).out == b"purged 0\n")


def shown_after_scan(trial, address, messages, size):
    """A packet of a scan is shown, and tossed at its link."""
    node = address.decode().split("/")[1]
    name = next(name for name in os.listdir(trial.runner.folder)
                if name.startswith("1.10.%s." % node) and name.endswith(".pkt"))
    shown = trial.run("show", trial.path(name))
    trial.holds("show reads what scan wrote", shown.status == 0)
    trial.holds("show counts as scan does", shown.out.endswith(b"end %d messages, %d bytes\n" % (messages, size)))
    if "%s.links" % node in ("3.links", "4.links"):
        trial.drop("link.base")
        tossed = trial.run("toss", trial.path(node + ".links"), trial.path("link.base"), trial.path(name))
        want = EMPTY_TALLY.replace(b"filed 0", b"filed %d" % messages)
        trial.holds("the link files all of it, not %r" % tossed.out, tossed.out == want)
    trial.drop(name)


def try_base(trial, content):
    """A base is loaded, saved, loaded and saved. Then it is scanned and purged."""
    base, links = trial.put("base", content), trial.path("1.links")
    saved = trial.run("toss", links, base, trial.path("empty.pkt"))
    try:
        (size, keys), fault = reading.read_base(content), None
    except reading.Fault as wrong:
        fault = str(wrong)
    if not trial.holds("load: the fault is %s, not %r" % (fault, saved.fault), trial.is_fault(saved, fault)):
        return
    if fault is not None:
        trial.holds("a faulty base is left as it is", trial.get("base") == content)
        return
    first = trial.get("base")
    if content[7:8] == b"2":
        trial.holds("what is loaded is saved", first == content[:size])
    trial.holds("saved and read here", reading.read_base(first)[1] == keys)
    trial.run("toss", links, base, trial.path("empty.pkt"))
    trial.holds("saved, loaded and saved", trial.get("base") == first)
    passed_on(trial, len(keys))
    trial.holds("a purge keeps the keys", {key[:2] for key in reading.read_base(trial.get("base"))[1] if len(key) == 2}
                == {key[:2] for key in keys if len(key) == 2})


def try_nodelist(trial, content):
    """A nodelist is printed twice, and its first and last address are searched."""
    path = trial.put("input", content)
    printed = trial.run("nodelist", path)
    trial.holds("printed twice", trial.run("nodelist", path) [:2] == printed[:2])
    if printed.status > 1:
        return
    lines = printed.out.split(b"\n")[:-1]
    checksum_as_counted(trial, content, lines[0])
    trial.holds("the count", lines[-1] == b"entries %d" % (len(lines) - 2))
    for line in {line for line in (lines[1], lines[-2]) if line[:1].isdigit()}:
        address = line.split(b" ")[0]
        found = trial.run("nodelist", "--find", address.decode(), path).out.split(b"\n")[1]
        want = next(other for other in lines[1:] if other.split(b" ")[0] == address)
        trial.holds("found as listed", found.split(b" ", 2)[2] == want)
    checked = trial.run("check", "--nodelist", path, "TEST", trial.path("1.links"), *(
        trial.path("%d.links" % link[2]) for link in making.DOWNLINKS))
    trial.holds("checked beside it", checked.status == 1 and checked.out.startswith(b"no TEST V4 Unknown 1:10/1 1:10/2\n"))


def checksum_as_counted(trial, content, line):
    """The checksum as Python counts it."""
    whole = content.split(b"\x1a")[0]
    first, _, rest = whole.partition(b"\n")
    stated = re.search(rb": *(\d{5})\r?$", first)
    want = b"crc absent"
    if stated:
        counted, said = binascii.crc_hqx(rest, 0), int(stated[1])
        want = b"crc match %05d" % said if counted == said else b"crc mismatch stated %05d computed %05d" % (said, counted)
    trial.holds("the checksum is %r, not %r" % (want, line), line == want)


def links_fault(files):
    """The first fault of some link files, or none."""
    try:
        for content in files:
            reading.read_links(content)
    except reading.Fault as fault:
        return str(fault)
    return None


def listed_links(path, content):
    """The output of `links --areas` for a link file."""
    _, faults = reading.judge_links(content)
    if faults:
        return b"".join(b"%s:%d: %s '%s'\n" % (path.encode(), number, fault.encode(), escaped(word))
                        for number, fault, word in faults)
    own, areas = reading.read_links(content)
    front = "%s: %s %d areas %d links\n" % (path, making.shown(own), len(areas), sum(map(len, areas.values())))
    return front.encode() + b"".join(
        b"%s: area %s %d links\n" % (path.encode(), tag, len(links)) for tag, links in areas.items())


def escaped(content):
    """Bytes as the program prints them."""
    return b"".join(b"\\\\" if byte == 0x5C else bytes([byte]) if 0x20 <= byte <= 0x7E else b"\\x%02x" % byte for byte in content)


def check_all_areas(trial, paths, files):
    """`check --all` prints what `check` prints of each area, in order of their tags."""
    tags = sorted({tag for content in files for tag in reading.read_links(content)[1]})
    each = [trial.run("check", "--", tag.decode(), *paths) for tag in tags]
    every = trial.run("check", "--all", *paths)
    trial.holds("each area is checked", every.out == b"".join(one.out for one in each))
    trial.holds("a no has status 1", every.status == max((one.status for one in each), default=0))


def try_links(trial, files):
    """Link files are listed, checked and drawn."""
    paths = [trial.put("net%d" % number, content) for number, content in enumerate(files)]
    listed = trial.runner.run("links", "--areas", *paths)
    trial.holds("all faulty lines are listed", listed.out == b"".join(map(listed_links, paths, files)))
    is_faulty = any(reading.judge_links(content)[1] for content in files)
    trial.holds("a fault has status 2", (listed.status, listed.fault) == (2 * is_faulty, b""))
    checked = trial.run("check", "test", *paths)
    drawn = trial.run("picture", "test", *paths)
    trial.holds("both end alike", (checked.status, checked.fault) == (drawn.status, drawn.fault))
    fault = links_fault(files)
    trial.holds("the first fault of the link files", trial.is_fault(checked, fault) if fault else checked.status in (0, 1))
    if checked.status <= 1:
        label = drawn.out.split(b"\n")[1]
        trial.holds("the picture has the verdict", label == b'label="' + checked.out[:-1] + b'";')
        trial.holds("check says one line", checked.out.count(b"\n") == 1 and checked.out.startswith((b"yes ", b"no ")))
        check_all_areas(trial, paths, files)
    if checked.status == 0:
        trial.holds("a yes has no red", b"color" not in drawn.out)


def try_script(trial, content):
    """A script is replayed, on a tidy net and on one that is not tidy."""
    script = trial.put("input", content)
    for net in ("chain", "loop"):
        folder = os.path.join(trial.examples, "nets", net)
        files = sorted(os.path.join(folder, name) for name in os.listdir(folder))
        replayed = trial.run("replay", script, *files)
        if replayed.status == 0 and net == "chain":
            lines = replayed.out.split(b"\n")
            filed = [int(line.split(b" ")[4]) for line in lines[:len(files)]]
            posts = len(set(re.findall(rb"(?m)^[ \t]*POST[ \t]+0*(\d)[ \t]+\S+[ \t]+([0-9a-f]{8})", content)))
            trial.holds("none files more than was posted", max(filed) <= posts)
            if lines[-2] == b"settled yes":
                trial.holds("settled: all files the same", len(set(filed)) == 1)


def try_hex(trial, content):
    """A packet in digits is shown like the packet in bytes."""
    shown = trial.run("show", "--hex", trial.put("input", content))
    digits = bytes(byte for byte in content if byte not in b" \t\n\r")
    if len(digits) % 2 == 0 and re.fullmatch(rb"[0-9a-fA-F]*", digits):
        plain = trial.run("show", trial.put("plain", bytes.fromhex(digits.decode())))
        trial.holds("the digits say what the bytes say", shown[:3] == plain[:3])
    else:
        trial.holds("other digits are refused", shown.status == 2 and shown.fault == b"echonet: bad hex\n" and shown.out == b"")


IS_ID = re.compile(rb'(?:"(?:[^"\0\r]|"")*"|[^" \t\n\r\0][^ \t\n\r\0]*) +[0-9a-fA-F]+|"(?:[^"\0\r]|"")*"')
MONTHS = "Jan Feb Mar Apr May Jun Jul Aug Sep Oct Nov Dec".split()


def refusal_of(given, body):
    """Why a posting at 1:10/1 is refused, or None."""
    stamp = re.fullmatch(r"(\d{4})-(\d\d)-(\d\d)T(\d\d):(\d\d):(\d\d)", given["at"])
    names = [given[word].encode() for word in ("to", "from", "subject")]
    if not re.fullmatch("[0-9a-fA-F]{8}", given["serial"]):
        return "bad serial"
    if not stamp:
        return "bad stamp"
    if given["area"].upper() not in ("TEST", "OTHER"):
        return "B1 NoArea"
    if b"\0" in body:
        return "B2 ByteZero"
    if any(len(name) > most for name, most in zip(names, (35, 35, 71))):
        return "B3 FieldTooLong"
    year, month, day, hour, minute, second = (int(part) for part in stamp.groups())
    if not (1980 <= year <= 2079 and 1 <= month <= 12 and 1 <= day <= 31 and hour < 24 and minute < 60 and second < 60):
        return "B5 BadStamp"
    reply = given.get("reply", "").encode()
    return "B6 BadReply" if reply and not IS_ID.fullmatch(reply.strip(reading.BLANKS)) else None


def body_lines(body):
    """The lines of a posting's body."""
    lines = body.split(b"\n")
    lines = lines[:-1] if lines[-1] == b"" else lines
    return reading.lines_of(b"".join((line[:-1] if line.endswith(b"\r") else line) + b"\r" for line in lines)) if lines else []


def posted_base(given, body):
    """The base with only that posting."""
    reply = given.get("reply", "").encode().strip(reading.BLANKS)
    kept = [b"\x01MSGID: 1:10/1 " + given["serial"].lower().encode()] + [b"\x01REPLY: " + reply] * bool(reply)
    kept += body_lines(body) + [b"--- echonet", b" * Origin: echonet (1:10/1)"]
    date = "%s %s %s  %s\0" % (given["at"][8:10], MONTHS[int(given["at"][5:7]) - 1], given["at"][2:4], given["at"][11:])
    message = making.stored(
        0, (0, 0, 0), making.whole_body(making.text(given["area"].upper().encode(), kept, [], [])),
        given["to"].encode(), given["from"].encode(), given["subject"].encode(), date.encode())
    return making.base(0, [message])


def try_posting(trial, posting):
    """A posting, twice, and its path to a link."""
    words, body = posting
    trial.drop("base")
    told = dict(word[2:].split("=", 1) for word in words)
    refusal = refusal_of(told, body)
    links, base, given = trial.path("1.links"), trial.path("base"), trial.put("body", body)
    posted = trial.run("post", *words, links, base, given=given, most=4)
    if not trial.holds("post: the fault is %s, not %r" % (refusal, posted.fault), trial.is_fault(posted, refusal)):
        return
    if refusal is not None:
        trial.holds("refused: no base", trial.get("base") is None and posted.out == b"")
        return
    want = b"posted %s 1:10/1 %s\n" % (told["area"].upper().encode(), told["serial"].lower().encode())
    trial.holds("the line", posted.out == want)
    trial.holds("the base", trial.get("base") == posted_base(told, body))
    again = trial.run("post", *words, links, base, given=given)
    trial.holds("a known serial", again.fault == b"echonet: B4 KnownSerial\n")
    passed_on(trial, 1)


def clear(folder):
    """Empties a folder."""
    shutil.rmtree(folder, ignore_errors=True)
    os.mkdir(folder)
