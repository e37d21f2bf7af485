"""The lines Via of a letter: which systems passed it on."""
from __future__ import annotations

import re

from .addresses import Address

VIA = re.compile(rb"(?:^|\r)\n*\x01Via[: ]([^\r]*)", re.I)
ADDRESS = re.compile(rb"(?<![0-9:/.])([0-9]{1,5}):([0-9]{1,5})/([0-9]{1,5})(?:\.([0-9]{1,5}))?(?![0-9:/.])")


def passed_by(text: bytes, system: Address) -> bool:
    """Whether a system passed a letter on. Its address may have a domain. A point of it is another system."""
    for line in VIA.findall(text):
        for found in ADDRESS.findall(line):
            if Address(*(int(part or 0) for part in found)) == system:
                return True
    return False
