"""Spoiled packets and bundles by the thousand. Each message that is still whole is passed on, filed, or lies in bad/ with
a reason."""
import os
import random
import re
import shutil
import unittest

import build
from build import echomail, letter, packet, zipped

PACKETS = 1600
BUNDLES = 240
AT_ONCE = 80
ASIDE = re.compile(r"^put aside (\S+): gate: \S.*$")
LOGGED = re.compile(r"^[-0-9T:]{19}Z (aside \S+ from (-|[0-9]+:[0-9]+/[0-9]+(\.[0-9]+)?) gate: \S|cut \S+ from |letter |known letter from |empty )")


class Spoiled(build.StationCase):
    """A station that gets spoiled files."""

    def setUp(self) -> None:
        super().setUp()
        self.chance = random.Random(20)
        self.aside = self.whole = self.last = 0

    def spoil(self, content: bytes) -> bytes:
        """Changes, cuts, repeats or inserts some bytes."""
        new = bytearray(content)
        for _ in range(self.chance.choice((1, 1, 1, 2, 5))):
            place = self.chance.randrange(len(new)) if new else 0
            way = self.chance.randrange(6)
            if way == 0 and new:
                new[place] = self.chance.choice((0, 1, 2, 13, 0x41, 0xFF, self.chance.randrange(256)))
            elif way == 1:
                del new[place:]
            elif way == 2:
                del new[place : place + self.chance.randrange(1, 40)]
            elif way == 3:
                new[place:place] = bytes(self.chance.choice((1, 2, 3, 100)))
            elif way == 4:
                new[place:place] = bytes(self.chance.randrange(256) for _ in range(self.chance.randrange(1, 20)))
            else:
                new[place:place] = new[place // 2 : place // 2 + self.chance.randrange(200)]
        return bytes(new)

    def some_packet(self) -> tuple[bytes, list[bytes]]:
        """A packet, and its messages. None comes twice."""
        kinds = (echomail, lambda number: letter(number, self.chance.choice((100, 7))))
        first, self.last = self.last + 1, self.last + self.chance.randint(1, 5)
        messages = [self.chance.choice(kinds)(number) for number in range(first, self.last + 1)]
        return packet(*messages), messages

    def everything(self, folder: str) -> bytes:
        """The bytes of all files of a folder."""
        return b"\0".join(self.content(folder, name) for name in self.names(folder))

    def judge(self, files: dict[str, bytes], messages: list[bytes], lines: list[str], status: int) -> None:
        """Looks at what became of some files."""
        self.assertIn(status, (0, 1))
        self.assertEqual((self.names("inbound"), self.names("gate")), ([], []))
        for line in lines:
            self.assertRegex(line, r"^(put aside \S+: gate: \S|letter [0-9]+\.msg from )")
        aside = [name for name in self.names("bad") if not name.endswith(".why")]
        for name in aside:
            self.assertRegex(self.reason(name), r"^gate: \S")
        self.assertEqual(len(aside), sum(ASIDE.match(line) is not None for line in lines))
        for line in self.content("log").decode().split("\n")[:-1] if os.path.exists(self.at("log")) else []:
            self.assertRegex(line, LOGGED)
        passed, bad, mail = (self.everything(folder) for folder in ("tossing", "bad", "netmail"))
        for content in files.values():
            for message in messages:
                if message in content:
                    text = message[34:].split(b"\0", 3)[3]
                    self.assertTrue(message in passed or message in bad or text in mail, (message, content))
                    self.whole += 1
        self.aside += len(aside)
        for folder in ("tossing", "bad", "netmail"):
            shutil.rmtree(self.at(folder), ignore_errors=True)

    def run_some(self, count: int, make) -> None:
        """Some files at once."""
        files, messages = {}, []
        for number in range(count):
            name, content, parts = make(number)
            self.put("inbound/" + name, content)
            files[name] = content
            messages += parts
        status, lines = self.gate()
        self.judge(files, messages, lines, status)

    def test_packets(self):
        def make(number: int):
            content, messages = self.some_packet()
            return "%04d.pkt" % number, self.spoil(content), messages

        for _ in range(PACKETS // AT_ONCE):
            self.run_some(AT_ONCE, make)
        self.assertGreater(self.aside, PACKETS // 4)
        self.assertGreater(self.whole, PACKETS)

    def test_bundles(self):
        def make(number: int):
            made = [self.some_packet() for _ in range(self.chance.randint(1, 3))]
            content = zipped(*((str(count), it) for count, (it, _) in enumerate(made)), method=self.chance.choice((0, 8)))
            return "%08d.su0" % number, self.spoil(content), [message for _, messages in made for message in messages]

        for _ in range(BUNDLES // AT_ONCE):
            self.run_some(AT_ONCE, make)
        self.assertGreater(self.aside, BUNDLES // 4)

    def test_noise(self):
        """Bytes by chance, under the beginnings of all archivers."""
        begins = (b"PK\3\4", b"PK\5\6", b"PK00PK\3\4", b"7z\xbc\xaf\x27\x1c", b"\x60\xea", b"\x1a\x08", b"ZOO ", b"", build.header(), b"\x02\x00" * 40)

        def make(number: int):
            noise = bytes(self.chance.randrange(256) for _ in range(self.chance.randrange(300)))
            return "%08d.su0" % number, self.chance.choice(begins) + noise, []

        self.run_some(AT_ONCE, make)


if __name__ == "__main__":
    unittest.main()
