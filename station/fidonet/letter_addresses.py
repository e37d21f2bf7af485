"""From whom a letter is, and to whom: its lines INTL, TOPT and FMPT, and the numbers of its message."""
from __future__ import annotations

import re
from dataclasses import dataclass
from typing import Optional

from .addresses import Address
from .messages import Message
from .packets import Header, Packet

INTL = re.compile(rb"(?:^|\r)\n*\x01INTL:? +([0-9]+):([0-9]+)/([0-9]+)[^ \r]* +([0-9]+):([0-9]+)/([0-9]+)")
HAS_INTL = re.compile(rb"(?:^|\r)\n*\x01INTL")
TO_POINT = re.compile(rb"(?:^|\r)\n*\x01TOPT:? *([0-9]+)")
FROM_POINT = re.compile(rb"(?:^|\r)\n*\x01FMPT:? *([0-9]+)")
MOST = 65535


@dataclass(frozen=True)
class Route:
    """Who wrote a letter, and to whom."""

    to: Address
    by: Address


def number_of(digits: bytes) -> int:
    """A number of a line. Larger ones than fields hold are no address of anyone."""
    return min(int(digits[:9]), MOST)


def point_of(form: re.Pattern[bytes], text: bytes) -> int:
    """The point that a line names, or 0."""
    found = form.search(text)
    return number_of(found[1]) if found else 0


def stated_route(text: bytes) -> Optional[Route]:
    """What a line INTL says, without points."""
    found = INTL.search(text)
    if not found:
        return None
    numbers = list(map(number_of, found.groups()))
    return Route(Address(*numbers[:3]), Address(*numbers[3:]))


def with_points(route: Route, text: bytes) -> Route:
    """The same with the points of TOPT and FMPT."""
    to = route.to.with_point(point_of(TO_POINT, text))
    return Route(to, route.by.with_point(point_of(FROM_POINT, text)))


def route_of(message: Message, packet: Packet, header: Header) -> Route:
    """The route of a letter in a packet. Without INTL the zones are those of the packet."""
    text = message.text_of(packet)
    node, to_node, net, to_net = message.numbers(packet)[:4]
    unstated = Route(Address(header.destination.zone, to_net, to_node), Address(header.sender.zone, net, node))
    return with_points(stated_route(text) or unstated, text)
