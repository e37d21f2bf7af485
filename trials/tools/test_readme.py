"""The three lines of README that judge a net, as they are printed, on a JAM base with a known net."""
import os
import re
import subprocess
import tempfile
import unittest

import fixtures
from fixtures import Mail, files

SECTION = re.compile(r"(?ms)^## Judge your net\n(.*?)^## ")
BASE = "/var/fido/ru.fido"
WAYS = ("5020/2 1", "5020/3 1", "5020/1")


def lines():
    """The commands of the section that stand without what they print."""
    with open(os.path.join(fixtures.TOP, "README.md"), encoding="utf-8") as file:
        found = SECTION.search(file.read())
    return re.findall(r"(?m)^    ((?!\$|no |yes |areas ).*)$", found.group(1))


class Readme(unittest.TestCase):
    """The commands follow each other in one folder, where the base has another path."""

    def test_judge_your_net(self):
        """Mail of three systems came by 2:5020/1 to 2:5020/100. So the files are a star, and the page has the area."""
        commands = lines()
        self.assertEqual([command.split()[0] for command in commands], ["links-seen", "echonet", "net-page"])
        self.assertIn("jam:RU.FIDO:" + BASE, commands[0])
        with tempfile.TemporaryDirectory() as place:
            os.mkdir(os.path.join(place, "bin"))
            os.symlink(fixtures.PROGRAM, os.path.join(place, "bin", "echonet"))
            fixtures.jam_base(os.path.join(place, "base"), [Mail("2:5020/1 %08x" % i, (way,)) for i, way in enumerate(WAYS)])
            path = os.pathsep.join((os.path.join(place, "bin"), fixtures.TOOLS, os.environ["PATH"]))
            printed = [self.ran(command.replace(BASE, os.path.join(place, "base")), place, path) for command in commands]
            self.assertEqual(printed[1], "yes RU.FIDO 4 systems 3 links\nareas 1 yes 1 no 0\n")
            self.assertEqual(sorted(files(os.path.join(place, "seen"))), ["2.5020.1", "2.5020.100", "2.5020.2", "2.5020.3"])
            with open(os.path.join(place, "net.html"), encoding="utf-8") as file:
                self.assertIn("RU.FIDO", file.read())

    def ran(self, command, place, path):
        """What a command prints. It has to end with 0."""
        ended = subprocess.run(command, shell=True, cwd=place, env={**os.environ, "PATH": path}, stdout=subprocess.PIPE, check=False)
        self.assertEqual(ended.returncode, 0, command)
        return ended.stdout.decode()


if __name__ == "__main__":
    unittest.main()
