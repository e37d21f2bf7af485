"""What all trials share: the program that they try, and whole files read and written."""
import os

TOP = os.path.dirname(os.path.dirname(os.path.dirname(os.path.abspath(__file__))))
PROGRAM = os.path.realpath(os.environ.get("ECHONET", os.path.join(TOP, "bin", "echonet")))


def read(path):
    """The bytes of a file."""
    with open(path, "rb") as file:
        return file.read()


def content_of(path):
    """The bytes of a file, or None."""
    try:
        return read(path)
    except (FileNotFoundError, IsADirectoryError):
        return None


def write(path, content):
    """Writes a file, and returns its path."""
    with open(path, "wb") as file:
        file.write(content)
    return path
