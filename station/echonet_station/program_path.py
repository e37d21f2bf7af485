"""Where this program is."""
from __future__ import annotations

import os
import shutil
from os.path import dirname, join, realpath

NAME = "echonet-station"


def whole_path() -> str:
    """The whole path of this program: that of the PATH, if it is this one."""
    own = join(dirname(dirname(realpath(__file__))), NAME)
    found = shutil.which(NAME)
    return os.path.abspath(found) if found and realpath(found) == own else own
