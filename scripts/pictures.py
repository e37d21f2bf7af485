#!/usr/bin/env python3
"""pictures.py PROGRAM [--check]: makes docs/pictures/loop.html, the page of examples/nets/loop, and from it
docs/pictures/loop.png, the step at which the second packet with one message leaves for 1:10/4. The pixels are drawn by
Chromium. With --check nothing is written: the page has to be the one that net-page makes now, and Chromium is not
needed. The day in a page is left out, and its style and script, which stand in tools/, are kept as their digests.
net-page needs Graphviz."""
import hashlib
import os
import re
import shutil
import subprocess
import sys
import tempfile

TOP = os.path.dirname(os.path.dirname(os.path.abspath(__file__)))
PAGE, PICTURE = "docs/pictures/loop.html", "docs/pictures/loop.png"
STEPS, SIZE = 6, "900,960"


def page(program: str, folder: str) -> str:
    """The page of the net, without its day."""
    made = os.path.join(folder, "loop.html")
    files = ["examples/nets/loop/%d.links" % number for number in range(1, 5)]
    subprocess.run(["tools/net-page", "--why", "--title", "A loop", made, *files], cwd=TOP, check=True,
                   env={**os.environ, "ECHONET": program})
    with open(made, encoding="utf-8") as file:
        return re.sub(r" on \d{4}-\d\d-\d\d \d\d:\d\d UTC", "", file.read())


def kept(text: str) -> str:
    """The page with the digests of its style and script."""
    def digest(part: re.Match[str]) -> str:
        return part[1] + hashlib.sha256(part[3].encode()).hexdigest() + part[4]

    return re.sub(r"(<(style|script)>)(.*?)(</\2>)", digest, text, flags=re.DOTALL)


def draw(text: str, folder: str) -> None:
    """Draws the page after its last step, for a reader who wants no motion."""
    text = re.sub(r'<meta http-equiv="Content-Security-Policy"[^>]*>', "", text)
    steps = "<script>for (let step = 0; step < %d; step++) document.querySelectorAll('.run button')[1].click();</script>" % STEPS
    path = os.path.join(folder, "stepped.html")
    with open(path, "w", encoding="utf-8") as file:
        file.write(text.replace("</body>", steps + "</body>"))
    subprocess.run(["chromium", "--headless", "--no-sandbox", "--disable-gpu", "--hide-scrollbars", "--force-prefers-reduced-motion",
                    "--window-size=" + SIZE, "--screenshot=" + os.path.join(TOP, PICTURE), "file://" + path],
                   check=True, stderr=subprocess.DEVNULL)


def main() -> None:
    """Writes both files, or compares the page."""
    program = os.path.abspath(sys.argv[1])
    folder = tempfile.mkdtemp()
    try:
        text = page(program, folder)
        if "--check" in sys.argv:
            with open(os.path.join(TOP, PAGE), encoding="utf-8") as file:
                if file.read() != kept(text):
                    sys.exit("%s is not what net-page makes: run make pictures" % PAGE)
            return
        with open(os.path.join(TOP, PAGE), "w", encoding="utf-8") as file:
            file.write(kept(text))
        draw(text, folder)
    finally:
        shutil.rmtree(folder)


main()
