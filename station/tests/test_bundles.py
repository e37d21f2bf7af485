"""Bundles: what is in them, their limits, and those that cannot be read."""
import io
import os
import shutil
import struct
import subprocess
import unittest
import zipfile

import build
from build import END, echomail, header, ids_in, packet, zipped
from echonet_station import bundles, unpacking

CLEAN = header()


class BundleCase(build.StationCase):
    """A test with one bundle."""

    def bundle(self, content: bytes, name: str = "0000ff90.su0", age: float = build.OLD) -> tuple[int, list[str]]:
        """Lets the gate take a bundle."""
        self.put("inbound/" + name, content, age)
        return self.gate()

    def refused(self, content: bytes, why: str) -> None:
        """A bundle that goes to bad/ whole. Nothing of it is used."""
        self.assertEqual(self.bundle(content), (1, ["put aside 0000ff90.su0: gate: " + why]))
        self.assertEqual((self.passed(), self.content("bad", "0000ff90.su0")), ({}, content))
        shutil.rmtree(self.at("bad"))


class Zips(BundleCase):
    """Zip files."""

    def test_members(self):
        paths = ("a.pkt", "../../../b.pkt", "/etc/passwd", "d/e\nf", "a.pkt")
        content = zipped(*((name, packet(echomail(number))) for number, name in enumerate(paths, 1)))
        self.assertEqual(self.bundle(content), (0, []))
        names = ["0000ff90.su0.%d.pkt" % number for number in range(1, 6)]
        wanted = {name: CLEAN + echomail(number) + END for number, name in enumerate(names, 1)}
        self.assertEqual(self.passed(), wanted)
        self.assertEqual((self.names("inbound"), self.names("bad"), self.names("gate")), ([], [], []))
        self.assertFalse(os.path.exists(os.path.join(self.work, "b.pkt")))

    def test_names_without_case(self):
        for number, name in enumerate(("A.MO0", "a.tuz", "a.We9", "a.thA", "a.FR1", "a.sa1", "a.su1"), 1):
            self.put("inbound/" + name, zipped(("x", packet(echomail(number)))))
        self.assertEqual(self.gate(), (0, []))
        self.assertEqual(len(self.passed()), 7)

    def test_a_bundle_with_the_name_of_a_packet(self):
        self.assertEqual(self.bundle(zipped(("x", packet(echomail(1)))), "a.pkt"), (0, []))
        self.assertEqual(self.passed(), {"a.pkt.1.pkt": CLEAN + echomail(1) + END})

    def test_a_packet_with_the_name_of_a_bundle(self):
        self.assertEqual(self.bundle(packet(echomail(1))), (0, []))
        self.assertEqual(self.passed(), {"0000ff90.su0": CLEAN + echomail(1) + END})

    def test_methods(self):
        for method in (zipfile.ZIP_STORED, zipfile.ZIP_BZIP2, zipfile.ZIP_LZMA):
            self.assertEqual(self.bundle(zipped(("x", packet(echomail(1))), method=method)), (0, []))
        self.assertEqual(len(self.names("tossing")), 6)

    def test_empty(self):
        self.assertEqual(self.bundle(b""), (0, []))
        self.assertIn(b" empty 0000ff90.su0\n", self.content("log"))
        self.assertEqual(self.names("inbound"), [])

    def test_unknown(self):
        self.refused(b"x" * 100, "unknown bundle")

    def test_kinds_without_a_program(self):
        self.refused(b"\x1a\x08" + b"x" * 100, "arc bundle, and no program for it")
        self.refused(b"ZOO 2.10 Archive.\x1a" + b"x" * 100, "zoo bundle, and no program for it")

    def test_a_member_that_is_no_packet(self):
        for other in (b"hello", packet()[:59], header()[:18] + b"\3\0" + header()[20:] + END, zipped(("x", packet(echomail(8))))):
            content = zipped(("a", packet(echomail(1))), ("b", other), ("c", packet(echomail(2))))
            self.assertEqual(self.bundle(content), (1, ["put aside 0000ff90.su0: gate: member 2: no packet"]))
            self.assertEqual(sorted(ids_in(b"".join(self.passed().values()))), [1, 2])
            self.assertEqual(self.content("bad", "0000ff90.su0"), content)
            for folder in ("bad", "tossing"):
                shutil.rmtree(self.at(folder))

    def test_refused_members(self):
        content = zipped(("a", packet(echomail(1))), ("b", packet(echomail(2), password=b"x")), ("c", packet(echomail(3), b"junk")))
        status, _ = self.bundle(content)
        self.assertEqual((status, self.names("inbound")), (1, []))
        self.assertEqual(sorted(ids_in(b"".join(self.passed().values()))), [1, 3])
        self.assertEqual([name for name in self.names("bad") if not name.endswith("why")], ["0000ff90.su0.2.pkt", "0000ff90.su0.3.pkt"])
        self.assertEqual(self.content("bad", "0000ff90.su0.3.pkt"), packet(echomail(3), b"junk"))

    def test_damaged_member(self):
        content = zipped(("a", packet(echomail(1))), ("b", packet(echomail(2))), method=zipfile.ZIP_STORED)
        place = content.index(b"Body 2")
        spoiled = content[:place] + b"B0dy" + content[place + 4 :]
        self.assertEqual(self.bundle(spoiled)[1], ["put aside 0000ff90.su0: gate: member 2: damaged: BadZipFile"])
        self.assertEqual(ids_in(b"".join(self.passed().values())), [1])

    def test_encrypted_member(self):
        content = bytearray(zipped(("a", packet(echomail(1))), ("b", packet(echomail(2)))))
        for mark, offset in ((b"PK\3\4", 6), (b"PK\1\2", 8)):
            content[content.rindex(mark) + offset] |= 1
        self.assertEqual(self.bundle(bytes(content))[1], ["put aside 0000ff90.su0: gate: member 2: encrypted"])
        self.assertEqual(ids_in(b"".join(self.passed().values())), [1])

    def test_retried_bundle_files_letters_once(self):
        content = zipped(("a", packet(build.letter(1))), ("b", b"hello"))
        for _ in range(2):
            self.bundle(content)
        self.assertEqual(self.names("netmail"), ["2.msg"])
        self.assertEqual(self.names("bad"), ["0000ff90.su0", "0000ff90.su0.why"])


class Limits(BundleCase):
    """Each limit, and one below it."""

    def test_members(self):
        small = packet()
        self.refused(zipped(*((str(number), small) for number in range(1001))), "more than 1000 members")
        status, _ = self.bundle(zipped(*((str(number), small) for number in range(1000))))
        self.assertEqual((status, len(self.passed())), (0, 1000))

    def test_index(self):
        content = zipped(("a" * 60000, packet(echomail(1))))
        status, _ = self.bundle(content)
        self.assertEqual(status, 0)
        shutil.rmtree(self.at("tossing"))
        self.refused(zipped(*(("%d" % number + "a" * 60000, b"x") for number in range(18))), "more than 1000 members")

    def test_member(self):
        head = packet(echomail(1))[:-2]
        self.refused(zipped(("a", head + bytes((64 << 20) + 1 - len(head)))), "too large unpacked")
        status, _ = self.bundle(zipped(("a", head + bytes((64 << 20) - len(head)))))
        self.assertEqual((status, ids_in(b"".join(self.passed().values()))), (0, [1]))

    def test_total(self):
        big = bytes(60 << 20)
        self.refused(zipped(*((str(number), big) for number in range(5))), "too large unpacked")

    def test_size_that_lies(self):
        content = bytearray(zipped(("a", bytes(65 << 20))))
        for mark, offset in ((b"PK\3\4", 22), (b"PK\1\2", 24)):
            struct.pack_into("<L", content, content.rindex(mark) + offset, 1000)
        self.bundle(bytes(content))
        self.assertEqual(self.passed(), {})
        self.assertEqual(self.content("bad", "0000ff90.su0"), bytes(content))

    def test_zip64(self):
        content = zipped(("a", packet(echomail(1))))
        place = content.rindex(b"PK\5\6")
        self.refused(content[:place] + b"PK\6\7" + bytes(16) + content[place:], "zip64")

    def test_limits_of_the_process(self):
        """A process that ends by a signal uses nothing."""

        def burn(*_):
            os.kill(os.getpid(), 24)

        self.addCleanup(setattr, unpacking, "unpack_zip", unpacking.unpack_zip)
        unpacking.unpack_zip = burn
        self.refused(zipped(("a", packet(echomail(1)))), "cannot be unpacked (status -24)")

    def test_device_of_the_process(self):
        """A full disk is not the bundle's fault: it stays."""

        def fail(*_):
            raise OSError(28, "No space left on device")

        self.addCleanup(setattr, unpacking, "unpack_zip", unpacking.unpack_zip)
        unpacking.unpack_zip = fail
        status, lines = self.bundle(zipped(("a", packet(echomail(1)))))
        self.assertEqual((status, self.names("bad")), (3, []))
        self.assertIn("No space left", lines[0])
        self.assertEqual(self.names("gate"), ["00000001.in", "00000001.name"])


class Arriving(BundleCase):
    """Bundles that may still be arriving."""

    whole = zipped(("a", packet(echomail(1))))

    def test_no_end_yet(self):
        self.assertEqual(self.bundle(self.whole[:-30], age=5), (0, ["waits 0000ff90.su0: no end yet"]))
        self.assertEqual(self.names("inbound"), ["0000ff90.su0"])
        self.put("inbound/0000ff90.su0", self.whole, 5)
        self.assertEqual(self.gate(), (0, []))
        self.assertEqual(len(self.passed()), 1)

    def test_no_end_at_last(self):
        self.refused(self.whole[:-30], "damaged: no end record")

    def test_damaged_and_young(self):
        content = self.whole.replace(b"PK\1\2", b"PK\1\3")
        self.assertEqual(self.bundle(content, age=5), (0, ["waits 0000ff90.su0: damaged: BadZipFile"]))
        self.assertEqual(self.gate(), (0, ["waits 0000ff90.su0: damaged: BadZipFile"]))
        os.utime(self.at("gate", "00000001.in"), (0, 0))
        self.assertEqual(self.gate(), (1, ["put aside 0000ff90.su0: gate: damaged: BadZipFile"]))


@unittest.skipUnless(any(map(shutil.which, unpacking.PROGRAMS)), "there is no 7z here")
class Others(BundleCase):
    """What 7z unpacks."""

    def seven(self, kind: str, *members: bytes, words: tuple[str, ...] = ()) -> bytes:
        """An archive of 7z."""
        for number, member in enumerate(members):
            build.put(os.path.join(self.work, "members", "%d.pkt" % number), member)
        path = os.path.join(self.work, "made." + kind)
        program = next(filter(None, map(shutil.which, unpacking.PROGRAMS)))
        subprocess.run([program, "a", "-t" + kind, *words, path, os.path.join(self.work, "members", "*")], check=True, capture_output=True)
        return build.content(path)

    def test_good(self):
        self.assertEqual(self.bundle(self.seven("7z", packet(echomail(1)), packet(echomail(2)))), (0, []))
        self.assertEqual(sorted(ids_in(b"".join(self.passed().values()))), [1, 2])

    def test_damaged(self):
        content = bytearray(self.seven("7z", packet(echomail(1)), packet(echomail(2)), words=("-mx0",)))
        content[content.index(b"Body 1")] ^= 1
        status, lines = self.bundle(bytes(content))
        self.assertEqual((status, len(lines)), (1, 1))
        self.assertEqual(self.content("bad", "0000ff90.su0"), bytes(content))
        self.assertNotIn(1, ids_in(b"".join(self.passed().values())))

    def test_encrypted(self):
        self.refused(self.seven("7z", packet(echomail(1)), words=("-psecret",)), "encrypted")

    def test_encrypted_names(self):
        self.refused(self.seven("7z", packet(echomail(1)), words=("-psecret", "-mhe")), "damaged: 7z")

    def test_too_large(self):
        self.refused(self.seven("7z", bytes((64 << 20) + 1), words=("-mx1",)), "too large unpacked")

    def test_cut(self):
        self.refused(self.seven("7z", packet(echomail(1)))[:-20], "damaged: 7z")


class WithoutPrograms(BundleCase):
    """A machine that has none of these programs."""

    def setUp(self) -> None:
        super().setUp()
        self.addCleanup(setattr, unpacking, "PROGRAMS", unpacking.PROGRAMS)
        unpacking.PROGRAMS = ()

    def test_none(self):
        for begin, kind in ((b"\x60\xea", "arj"), (b"\x16\x00-lh5-", "lzh"), (b"Rar!\x1a\x07", "rar"), (b"7z\xbc\xaf\x27\x1c", "7z")):
            self.refused(begin + bytes(100), "%s bundle, and no program for it" % kind)


class Kinds(unittest.TestCase):
    """Archivers by their first bytes."""

    def test_kinds(self):
        marks = {b"PK\3\4": "zip", b"PK\5\6": "zip", b"PK00PK\3\4": "zip", b"\x2a\x00-lz4-": "lzh", b"\x1a\x14": "arc"}
        for begin, kind in marks.items():
            self.assertEqual(bundles.kind_of(begin + bytes(20)).value, kind)
        for begin in (b"", b"\x1a", b"\x1a\x15", b"\x1a\x00", b"PK", b"PK\1\2", packet()[:20]):
            self.assertIsNone(bundles.kind_of(begin))

    def test_comment(self):
        made = io.BytesIO(zipped(("a", b"x")))
        with zipfile.ZipFile(made, "a") as archive:
            archive.comment = b"c" * 65535
        self.assertIsNone(bundles.fault_of_zip(made, len(made.getvalue())))


if __name__ == "__main__":
    unittest.main()
