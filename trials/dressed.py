"""gate(dress(p)) = p, byte for byte, for each packet p that a scan of random nets wrote.

The nets, postings, tosses and scans are those of stations.py. For each packet `dress` of its sender writes a password,
or fields of type 2+, or both or nothing, as random lines PEER say. A third of the packets then goes into zip bundles.
`gate` of the receiver, whose line PEER has the same password, passes each on. The result has the bytes of the scan,
each packet once, and nothing is put aside. The dressed packet has other bytes than that of the scan if there was
anything to write. With another password each packet is put aside. Arguments: how many nets (20), the first number (0).
"""
import os
import random
import subprocess
import sys
import tempfile
import zipfile

import stations
from lib.contents import TOP, read, write

STATION = os.path.join(TOP, "station", "echonet-station")
PASSWORDS = ("", "x", "SECRET", "lowerup", "!#$%&()*", "12345678")


def shown(address):
    """zone:net/node."""
    return "%d:%d/%d" % tuple(address)


def run(folder, word, expected=0):
    """Runs a word, which ends with this status."""
    done = subprocess.run([STATION, folder, word], stdout=subprocess.PIPE, stderr=subprocess.STDOUT, check=False)
    if done.returncode != expected:
        sys.exit("dressed.py: %s: %d %s" % (word, done.returncode, done.stdout.decode("latin-1")))


def sender_of(content):
    """The address of the header of a packet that a scan wrote."""
    return tuple(int.from_bytes(content[at:at + 2], "little") for at in (34, 20, 0))


class Lines:
    """What two systems agreed on."""

    def __init__(self, chance):
        self.chance, self.known = chance, {}

    def between(self, one, other):
        """Password and type of the packets of a pair. Their marks are the same both ways."""
        pair = tuple(sorted((one, other)))
        if pair not in self.known:
            self.known[pair] = (self.chance.choice(PASSWORDS), self.chance.random() < 0.5)
        return self.known[pair]

    def peer(self, one, other, wrong=False):
        """The line of one system for the other."""
        password, plus = self.between(one, other)
        if wrong:
            password = "other"
        return "PEER %s%s%s\n" % (shown(other), " PASSWORD " + password if password else "", " PLUS" if plus else "")


def make(folder, address, peers):
    """A station."""
    os.makedirs(os.path.join(folder, "scanned"))
    os.makedirs(os.path.join(folder, "inbound"))
    write(os.path.join(folder, "links"), ("SYSTEM %s\n" % shown(address)).encode())
    write(os.path.join(folder, "peers"), peers.encode())


def dressed(place, packets, lines):
    """The packets as they are sent: pairs of packet and bytes."""
    found = []
    for number, sender in enumerate(sorted({sender_of(packet.content) for packet in packets})):
        folder = os.path.join(place, "sender%d" % number)
        own = [packet for packet in packets if sender_of(packet.content) == sender]
        make(folder, sender, "".join(lines.peer(sender, to) for to in sorted({packet.to for packet in own})))
        names = ["%d.%d.%d.%d.pkt" % (*packet.to, count) for count, packet in enumerate(own)]
        for name, packet in zip(names, own):
            write(os.path.join(folder, "scanned", name), packet.content)
        run(folder, "dress")
        for name, packet in zip(names, own):
            content = read(os.path.join(folder, "scanned", name))
            password, plus = lines.between(sender, packet.to)
            if (content != packet.content) != bool(password or plus):
                sys.exit("dressed.py: dress of %s for %r" % (name, (password, plus)))
            found.append((packet, content))
    return found


def put(folder, pairs, chance):
    """Puts packets into the folder of received files, some of them in bundles. Returns the names by which the gate calls them."""
    names, bundle = {}, []
    for count, (packet, content) in enumerate(pairs):
        if chance.random() < 0.3:
            bundle.append((packet, content))
        else:
            names["%08x.pkt" % count] = packet
            write(os.path.join(folder, "inbound", "%08x.pkt" % count), content)
    if bundle:
        with zipfile.ZipFile(os.path.join(folder, "inbound", "0000ff9c.mo0"), "w", chance.choice((0, 8))) as archive:
            for count, (packet, content) in enumerate(bundle, 1):
                archive.writestr("%08x.PKT" % count, content)
                names["0000ff9c.mo0.%d.pkt" % count] = packet
    return names


def passed(folder):
    """What the gate passed on: name and bytes."""
    tossing = os.path.join(folder, "tossing")
    names = [name for name in (os.listdir(tossing) if os.path.isdir(tossing) else []) if name.endswith(".pkt")]
    return sorted((read(os.path.join(tossing, name[:-4] + ".name")).decode(), read(os.path.join(tossing, name))) for name in names)


def received(place, pairs, lines, chance):
    """Lets the gates of all receivers take the packets in."""
    for number, to in enumerate(sorted({packet.to for packet, _ in pairs})):
        own = [pair for pair in pairs if pair[0].to == to]
        senders = sorted({sender_of(packet.content) for packet, _ in own})
        folder = os.path.join(place, "receiver%d" % number)
        make(folder, to, "".join(lines.peer(to, sender) for sender in senders))
        names = put(folder, own, chance)
        run(folder, "gate")
        if passed(folder) != sorted((name, packet.content) for name, packet in names.items()):
            sys.exit("dressed.py: the packets that the gate passed on for %s" % shown(to))
        if os.path.exists(os.path.join(folder, "bad")) and os.listdir(os.path.join(folder, "bad")):
            sys.exit("dressed.py: put aside: %r" % os.listdir(os.path.join(folder, "bad")))
        folder = os.path.join(place, "wrong%d" % number)
        make(folder, to, "".join(lines.peer(to, sender, True) for sender in senders))
        packet, content = own[0]
        write(os.path.join(folder, "inbound", "1.pkt"), content)
        run(folder, "gate", 1)
        if passed(folder) or read(os.path.join(folder, "bad", "1.pkt")) != content:
            sys.exit("dressed.py: a wrong password")


def main():
    """The trial."""
    count = int(sys.argv[1]) if len(sys.argv) > 1 else 20
    begin = int(sys.argv[2]) if len(sys.argv) > 2 else 0
    many = changed = 0
    for number in range(begin, begin + count):
        chance = random.Random("dressed %d" % number)
        with tempfile.TemporaryDirectory() as place, tempfile.TemporaryDirectory() as net_place:
            net = stations.Net(number, net_place, False)
            net.happen_all()
            lines = Lines(chance)
            pairs = dressed(place, net.packets, lines)
            received(place, pairs, lines, chance)
            many += len(pairs)
            changed += sum(packet.content != content for packet, content in pairs)
    if not changed:
        sys.exit("dressed.py: no packet was dressed")
    print("dressed.py: %d of %d packets of %d nets are the same after dress and gate, %d of them dressed" % (many, many, count, changed))


if __name__ == "__main__":
    main()
