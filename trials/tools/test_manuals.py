"""The manual pages of the tools, which are made from their descriptions, have their options and statuses."""
import os
import re
import subprocess
import tempfile
import unittest

import fixtures


class Manuals(unittest.TestCase):
    """Each page against its tool."""

    def test_pages(self):
        """The options of a page are those that the tool describes, and its parts are those of a manual page."""
        with tempfile.TemporaryDirectory() as place:
            subprocess.run([os.path.join(fixtures.TOP, "scripts", "manual_pages.py"), place], check=True)
            for tool in ("links-from", "links-seen", "net-page"):
                with open(os.path.join(fixtures.TOOLS, tool), encoding="utf-8") as file:
                    described = set(re.findall(r"(?<!`echonet export )--[a-z-]+", file.read().split('"""')[1]))
                with open(os.path.join(place, tool + ".1"), encoding="utf-8") as file:
                    page = file.read().replace("\\-", "-")
                self.assertEqual(set(re.findall(r"--[a-z-]+[a-z]", page.replace("export --json", ""))), described, tool)
                heads = re.findall(r"(?m)^\.SH (.*)$", page)
                self.assertEqual(heads, ["NAME", "SYNOPSIS", "DESCRIPTION", "EXIT STATUS", "SEE ALSO"], tool)


if __name__ == "__main__":
    unittest.main()
