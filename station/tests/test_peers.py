"""The file `peers`: each line, and each fault with its line."""
import unittest

import build
from fidonet.addresses import Address, address_of
from echonet_station.faults import Stopped
from echonet_station.peers import Peer, Reader, peers_at

UP = Address(2, 5020, 1)


def read(text: str):
    """Reads the text of a file."""
    return Reader().read(text.encode("latin-1"))


class Addresses(unittest.TestCase):
    """zone:net/node.point."""

    def test_good(self):
        self.assertEqual(address_of("2:5020/0"), Address(2, 5020, 0))
        self.assertEqual(address_of("1:010/02"), Address(1, 10, 2))
        self.assertEqual(address_of("32767:32767/32767.32767", True), Address(32767, 32767, 32767, 32767))
        self.assertEqual(str(Address(2, 5020, 100, 7)), "2:5020/100.7")

    def test_bad(self):
        for word in ("", "2:5020", "0:1/1", "2:0/1", "2:5020/32768", "32768:1/1", "2:5020/1.1", "2:5020/1@x", "٢:1/1"):
            self.assertIsNone(address_of(word), word)


class Lines(unittest.TestCase):
    """What the lines mean."""

    def test_all(self):
        peers = read(
            "; a comment \xff\n\n \t \nPEER 2:5020/1 PASSWORD secret PLUS\r\n\tPEER 2:5020/2\nPEER 2:5020/3 PLUS PASSWORD !\n"
            "POINT 2:31000/7 2:5020/100.7 PASSWORD PLUS\nROUTE 2:5020/1\nLEAVE 21:1/100\nLEAVE *"
        )
        self.assertEqual(peers.peer(UP), Peer(b"secret", True))
        self.assertEqual(peers.peer(Address(2, 5020, 2)), Peer(b"", False))
        self.assertEqual(peers.peer(Address(2, 5020, 3)), Peer(b"!", True))
        self.assertEqual(peers.peer(Address(2, 31000, 7)), Peer(b"PLUS", True))
        self.assertEqual(peers.real_of, {Address(2, 31000, 7): Address(2, 5020, 100, 7)})
        self.assertEqual(peers.route, UP)
        self.assertEqual((peers.leaves, peers.leaves_all), ({Address(21, 1, 100)}, True))

    def test_words_of_a_hub(self):
        peers = read("PEER 2:5020/1 GROUPS AZ PASS AREAFIX magic! HOLD\nPOINT 2:31000/7 2:5020/100.7 AREAFIX %s\nREADONLY test 2:5020/1\nREADONLY TEST 2:5020/100.7\n" % ("y" * 35))
        self.assertEqual(peers.peer(UP), Peer(b"", False, True, True, "magic!", "AZ"))
        self.assertEqual(peers.peer(Address(2, 31000, 7)).areafix, "y" * 35)
        self.assertTrue(peers.is_read_only("TEST", UP) and peers.is_read_only("TEST", Address(2, 31000, 7)))
        self.assertFalse(peers.is_read_only("TEST", Address(2, 5020, 2)) or peers.is_read_only("OTHER", UP))

    def test_no_file(self):
        self.assertEqual(peers_at("/nonexistent/peers").peers, {})

    def test_faults(self):
        faults = {
            "PEER 2:5020/1\x07": "K1 BadByte",
            "PEER 2:5020/1 \xe4": "K1 BadByte",
            "peer 2:5020/1": "K2 BadWord",
            "SYSTEM 2:5020/1": "K2 BadWord",
            "READONLY": "K2 BadWord",
            "READONLY TEST": "K3 BadAddress",
            "READONLY TEST 2:5020/1 x": "K3 BadAddress",
            "READONLY TEST 2:5020/1 2:5020/1": "K4 Repeated 2:5020/1",
            "HOLD 2:5020/1": "K2 BadWord",
            "PEER 2:5020/1 HOLD HOLD": "K2 BadWord",
            "PEER 2:5020/1 PASS x": "K2 BadWord",
            "PEER 2:5020/1 GROUPS ab": "K2 BadWord",
            "PEER 2:5020/1 AREAFIX": "K2 BadWord",
            "PEER 2:5020/1 AREAFIX short": "K7 WordLength",
            "POINT 2:31000/7 2:5020/100.7 AREAFIX " + "y" * 36: "K7 WordLength",
            "PEER 2:5020/1 PASSWORD": "K2 BadWord",
            "PEER 2:5020/1 PLUS PLUS": "K2 BadWord",
            "PEER 2:5020/1 PASSWORD a PASSWORD b": "K2 BadWord",
            "ROUTE 2:5020/1 x": "K2 BadWord",
            "LEAVE * x": "K3 BadAddress",
            "PEER": "K3 BadAddress",
            "PEER 2:5020/1.5": "K3 BadAddress",
            "ROUTE 2:5020/1.5": "K3 BadAddress",
            "POINT 2:31000/7": "K3 BadAddress",
            "PEER 2:5020/1 PASSWORD secretsec": "K5 PasswordTooLong",
            "POINT 2:31000/7 2:5020/100": "K6 NoPoint",
        }
        for line, fault in faults.items():
            with self.assertRaises(Stopped) as found:
                read("; first\n" + line)
            self.assertEqual((str(found.exception), found.exception.status), ("peers:2: " + fault, 2), line)

    def test_repeated(self):
        for line, again in (
            ("PEER 2:5020/1", "2:5020/1"),
            ("ROUTE 2:5020/1", "2:5020/1"),
            ("LEAVE 2:5020/1", "2:5020/1"),
        ):
            with self.assertRaisesRegex(Stopped, "^peers:2: K4 Repeated %s$" % again):
                read(line + "\n" + line)
        with self.assertRaisesRegex(Stopped, "^peers:2: K4 Repeated 2:5020/100.7$"):
            read("POINT 2:31000/7 2:5020/100.7\nPOINT 2:31000/8 2:5020/100.7")
        with self.assertRaisesRegex(Stopped, "^peers:2: K4 Repeated 2:31000/7$"):
            read("PEER 2:31000/7\nPOINT 2:31000/7 2:5020/100.7")

    def test_passwords_stay_secret(self):
        for line in ("PEER 2:5020/1 PASWORD hush", "PEER 2:5020/1 PASSWORD hush x", "PEER 2:5020/1 PASSWORD hushhushhush"):
            with self.assertRaises(Stopped) as found:
                read(line)
            self.assertNotIn("hush", str(found.exception))


class Faulty(build.StationCase):
    """A station with a faulty file."""

    peers = "PEER 2:5020/1 PASSWORD toolongword\n"

    def test_nothing_is_touched(self):
        self.put("inbound/1.pkt", build.packet(build.echomail(1)))
        ran = self.run_tool("gate")
        self.assertEqual((ran.returncode, ran.stderr), (2, b"echonet-station: peers:1: K5 PasswordTooLong\n"))
        self.assertEqual(self.names("inbound"), ["1.pkt"])

    def test_too_large(self):
        self.put("peers", b"; " + bytes(1 << 20))
        self.assertEqual(self.run_tool("gate").returncode, 2)


if __name__ == "__main__":
    unittest.main()
