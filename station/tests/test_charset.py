"""The charset of own posts: what was typed is what `export` shows."""
import json
import os
import unittest

import build
from build import stored
from fidonet import jam
from test_jam import add_message, subject_of

WORDS = ("TEST", "All", "Иван", "Тест")
BODY = "Привет, мир\n"
BYTES = {"CP866": "Привет, мир".encode("cp866"), "KOI8-R": "Привет, мир".encode("koi8_r"), "UTF-8": "Привет, мир".encode()}


class Posting(build.StationCase):
    """A station that posts."""

    peers = ""

    def setUp(self) -> None:
        super().setUp()
        os.makedirs(self.at("base"))

    def exported(self) -> list[dict]:
        """The messages of the base as JSON."""
        ran = build.subprocess.run([build.program(), "export", "--json", self.at("base")], stdout=-1, check=True)
        return [json.loads(line) for line in ran.stdout.decode().split("\n")[:-1]]

    def post(self, body: bytes, *words) -> tuple[int, str]:
        """Posts a body. Returns the status, and what was printed on standard error."""
        build.put(os.path.join(self.work, "body"), body)
        with open(os.path.join(self.work, "body"), "rb") as file:
            ran = self.run_tool("post", *words, stdin=file)
        return ran.returncode, ran.stderr.decode("utf-8", "replace").replace("echonet-station: ", "").strip()

    def text(self, message: dict) -> list[str]:
        """The lines that were typed."""
        return [line for line in message["lines"] if not line.startswith(("\1", "--- echonet", " * Origin"))]

    def settings(self, charset: str) -> None:
        """Sets the charset of the station."""
        self.put("settings", ("CHARSET=%s\n" % charset).encode())


class Typed(Posting):
    """Words and a body."""

    def test_utf_8(self):
        self.assertEqual(self.post(BODY.encode(), *WORDS), (0, ""))
        message = self.exported()[0]
        self.assertEqual((message["label"], message["from"], message["subject"], self.text(message)), ("UTF-8 4", "Иван", "Тест", ["Привет, мир"]))

    def test_charset_of_settings(self):
        for charset, label in (("CP866", "CP866 2"), ("koi8-r", "KOI8-R 2"), ("Cp1251", "CP1251 2")):
            self.settings(charset)
            for words in (WORDS, ("TEST", "Всем", "Ann", "Hi"), ("TEST", "All", "Ann", "Hi"), ("TEST", "All", "Ann", "Тест Тест Тест Тест Тест Тест Тест Тест Т")):
                self.assertEqual(self.post(b"\n  two blanks \n\n" + BODY.encode() + b"From me\n\n", *words), (0, ""))
                message = self.exported()[-1]
                self.assertEqual((message["label"], message["to"], message["from"], message["subject"]), (label, *words[1:]))
                self.assertEqual(self.text(message), ["", "  two blanks ", "", "Привет, мир", "From me", ""])

    def test_ascii(self):
        """Without a byte above 7F there is no label."""
        for charset in ("", "CP866"):
            self.settings(charset)
            self.assertEqual(self.post(b"Hello\n", "TEST", "All", "Ann", "Hi"), (0, ""))
            self.assertIsNone(self.exported()[-1]["label"])

    def test_unwritable(self):
        self.settings("CP866")
        for body, words in (("Цена 3 €\n", ("TEST", "All", "Ann", "Hi")), ("Hi\n", ("TEST", "All", "Ann", "3 €"))):
            self.assertEqual(self.post(body.encode(), *words), (2, "cannot write '€' in CP866"))
        self.assertEqual(self.post(BYTES["CP866"], "TEST", "All", "Ann", "Hi"), (2, "not UTF-8: give --charset"))
        self.settings("CP999")
        self.assertEqual(self.post(b"Hi\n", "TEST", "All", "Ann", "Hi"), (2, "no charset CP999"))
        self.assertEqual(self.exported(), [])

    def test_stated(self):
        """`--charset` says what the body is, and names that are no UTF-8."""
        for setting, label in (("", "KOI8-R 2"), ("CP866", "CP866 2")):
            self.settings(setting)
            name = os.fsdecode("Иван".encode("koi8_r"))
            for option in (("--charset", "koi8-r"), ("--charset=KOI8-R",)):
                self.assertEqual(self.post(BYTES["KOI8-R"] + b"\n", *option, "TEST", "All", name, "Тест"), (0, ""))
                message = self.exported()[-1]
                self.assertEqual((message["label"], message["from"], message["subject"], self.text(message)), (label, "Иван", "Тест", ["Привет, мир"]))
        self.assertEqual(self.post(b"Hi\n", "--charset", "none", "TEST", "All", "Ann", "Hi")[0], 2)
        self.assertEqual(self.post(b"Hi\n", "--charset")[0], 4)

    def test_label_in_the_body(self):
        """It wins."""
        self.settings("KOI8-R")
        self.assertEqual(self.post(b"\1CHRS: CP866 2\n" + BYTES["CP866"] + b"\n", "TEST", "All", "Ann", "Hi"), (0, ""))
        message = self.exported()[0]
        self.assertEqual((message["label"], self.text(message)), ("CP866 2", ["Привет, мир"]))
        self.assertEqual(sum(line.startswith("\1CHRS") for line in message["lines"]), 1)


class Written(Posting):
    """What editors write into folders and JAM bases."""

    def stored(self, text: bytes, names=(b"Me", b"All", b"Hi")) -> None:
        """A stored message that an editor wrote."""
        self.put("read/90.msg", stored(text + b"\r", attributes=0x100, names=names))

    def read(self) -> tuple[int, list[str]]:
        """Runs the reader of the folder."""
        ran = self.run_tool("read", "TEST", self.at("read"))
        return ran.returncode, ran.stdout.decode().split("\n")[:-1]

    def test_folder(self):
        names = tuple(word.encode() for word in ("Иван", "Всем", "Тест"))
        for setting, label in (("", "UTF-8 4"), ("CP866", "CP866 2")):
            self.settings(setting)
            self.stored(BYTES["UTF-8"], names)
            status, lines = self.read()
            self.assertEqual((status, lines[0].split(" ")[0]), (0, "posted"))
            message = self.exported()[-1]
            self.assertEqual((message["label"], message["from"], message["to"], message["subject"]), (label, "Иван", "Всем", "Тест"))
            self.assertEqual(self.text(message), ["Привет, мир"])
            self.assertNotIn("posting.text", self.names("read"))

    def test_bytes_of_an_editor(self):
        """They are taken as in the charset of the settings; without it they stay."""
        self.stored(BYTES["CP866"])
        self.assertEqual(self.read()[0], 0)
        message = self.exported()[-1]
        self.assertEqual((message["label"], self.text(message)), (None, [BYTES["CP866"].decode("cp437")]))
        self.settings("CP866")
        self.stored(BYTES["CP866"])
        self.assertEqual(self.read()[0], 0)
        message = self.exported()[-1]
        self.assertEqual((message["label"], self.text(message)), ("CP866 2", ["Привет, мир"]))

    def test_refused(self):
        self.settings("CP866")
        self.stored("Цена 3 €".encode())
        self.assertEqual(self.read(), (0, ["put aside 90.msg: echonet-station: cannot write '€' in CP866", "exported 0 messages, next 0"]))
        self.assertEqual(self.names("read", "refused"), ["90.msg", "90.msg.why"])

    def test_jam(self):
        path = self.at("jam")
        self.assertEqual(self.run_tool("read", "--jam", "TEST", path).returncode, 0)
        self.settings("CP866")
        add_message(path, "Анна".encode(), b"Hi", BYTES["UTF-8"] + b"\r", b"2:5020/100 0000aaaa")
        add_message(path, b"Ann", b"Euro", "3 €\r".encode())
        add_message(path, b"Ann", b"Plain", b"plain\r")
        ran = self.run_tool("read", "--jam", "TEST", path)
        self.assertEqual((ran.returncode, ran.stderr.decode()), (2, "echonet-station: cannot write '€' in CP866\n"))
        lines = ran.stdout.decode().split("\n")
        self.assertEqual((lines[0], lines[1].split(" ")[0], lines[2]), ("posted TEST 2:5020/100 0000aaaa", "posted", "refused 2"))
        first, second = self.exported()
        self.assertEqual((first["label"], first["from"], self.text(first), second["subject"], second["label"]), ("CP866 2", "Анна", ["Привет, мир"], "Plain", None))
        with jam.Base(path) as base:
            marks = [(subject_of(message), message.numbers[jam.ATTRIBUTE] & jam.SENT) for _, _, message in base.numbered()]
        self.assertEqual(marks[:3], [(b"Hi", jam.SENT), (b"Euro", 0), (b"Plain", jam.SENT)])
        self.assertEqual([name for name in self.names() if ".post" in name], [])
        self.assertEqual(self.run_tool("read", "--jam", "TEST", path).stdout.decode().split("\n")[0], "refused 2")
        self.assertEqual(len(self.exported()), 2)


if __name__ == "__main__":
    unittest.main()
