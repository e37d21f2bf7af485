"""Looks at read-only links: one that has other links in the area loses what they send through it."""
from __future__ import annotations

from typing import Iterator

from .judging_links import tag_word
from .link_lines import links_in
from .mailer import Finding
from .net_files import NetFiles
from .station import Station


def look_at_read_only(station: Station) -> Iterator[Finding]:
    """Whether each read-only link is a leaf of its area, by its link file in net/."""
    if not station.peers.read_only:
        return
    files = {file.owner: file.text for file in NetFiles(station).files}
    for tag, addresses in sorted(station.peers.read_only.items()):
        for address in sorted(addresses):
            link = station.peers.link_of(address)
            what = "readonly %s %s" % (tag, station.peers.net_address(link))
            if link in files:
                others = [it for it in links_in(files[link], tag_word(tag)) or () if it not in (station.own, link)]
                names = " ".join(map(str, others))
                yield Finding(what, not others, "it has %s there too: what these send through it is lost here" % names)
            elif link not in station.peers.real_of:
                yield Finding(what, True, "no link file in net tells whether it has other links", is_note=True)
            else:
                yield Finding(what, True)
