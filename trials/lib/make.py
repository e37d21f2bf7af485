"""Makes the files of the trials that are shell scripts. Arguments: what to make, and its arguments.

links ADDRESS TAG LINK..         a link file of one area
packet FIRST COUNT SIZE          plain messages from 1:10/2 to 1:10/1
spread FIRST COUNT SIZE AREAS    the same, over so many areas, T0 and so on
base FIRST COUNT SIZE CURSOR     the base of 1:10/1 with these messages
purged FIRST COUNT               that base, all of it scanned, after a purge
posted FIRST COUNT SIZE CURSOR   that base after the posting of `Hello` with serial 1
scanned LINK FIRST COUNT SIZE    its packet of them for a link
downlink FIRST COUNT SIZE        the base of the link that has tossed that packet
ids BASE                         the id of each message of a base, a line each
"""
import os
import sys

sys.path.insert(0, os.path.dirname(os.path.dirname(os.path.abspath(__file__))))
from lib import making  # noqa: E402


def serials(first, count):
    """So many serials from the first on."""
    return range(int(first), int(first) + int(count))


def address(word):
    """The address of an argument."""
    zone, rest = word.split(":")
    net, node = rest.split("/")
    return int(zone), int(net), int(node)


def ids(path):
    """The ids of a base's messages, a line each."""
    with open(path, "rb") as file:
        _, messages = making.read_base(file.read())
    return b"".join(making.id_of(message) + b"\n" for message in messages)


MAKERS = {
    "links": lambda own, tag, *links: making.link_file(
        address(own), [(tag, [address(link) for link in links])]),
    "packet": lambda first, count, size: making.plain_packet(serials(first, count), int(size)),
    "spread": lambda first, count, size, areas: making.spread_packet(
        serials(first, count), int(size), int(areas)),
    "base": lambda first, count, size, cursor: making.plain_base(
        serials(first, count), int(size), int(cursor)),
    "purged": lambda first, count: making.purged_base(serials(first, count)),
    "posted": lambda first, count, size, cursor: making.posted_base(
        serials(first, count), int(size), int(cursor)),
    "scanned": lambda link, first, count, size: making.scanned_packet(
        address(link), serials(first, count), int(size)),
    "downlink": lambda first, count, size: making.downlink_base(serials(first, count), int(size)),
    "ids": ids,
}

if __name__ == "__main__":
    sys.stdout.buffer.write(MAKERS[sys.argv[1]](*sys.argv[2:]))
