"""What the tools of this folder share: the pages that `wikiexpand` prints, and copies of a folder."""
import os
import re
import subprocess
import sys
import tempfile

PROGRAM = os.environ.get("WIKIEXPAND") or os.path.join(os.path.dirname(os.path.dirname(os.path.abspath(__file__))), "wikiexpand")
SUFFIXES = (b".wiki", b".lua")


def run(*words, told=False):
    """What a run of the program prints, where it ends with status 0, or what it tells on standard error; else its status is ours."""
    if told:
        # (where the program is yet to be built, that is told at once)
        run("demo", "1")
    ran = subprocess.run([PROGRAM, *words], stdin=subprocess.DEVNULL, stdout=subprocess.PIPE, stderr=subprocess.PIPE if told else None, check=False)
    if ran.returncode:
        sys.stderr.buffer.write(ran.stderr or b"")
        sys.exit(ran.returncode)
    return ran.stderr if told else ran.stdout


def blocks(printed):
    """The titles and texts of what `--all` prints: a line `page TITLE LENGTH`, so many bytes, and a newline."""
    at = 0
    while at < len(printed):
        end = printed.index(b"\n", at)
        title, _, length = printed[at:end].removeprefix(b"page ").rpartition(b" ")
        yield os.fsdecode(title), printed[end + 1 : end + 1 + int(length)]
        at = end + 2 + int(length)


def title_of(name):
    """The title of a file by its name, as far as it hangs on more than a namespace; None for another file."""
    stem, suffix = os.path.splitext(os.fsencode(name))
    if suffix not in SUFFIXES:
        return None
    return normal(re.sub(rb"%([0-9A-Fa-f]{2})", lambda it: bytes([int(it[1], 16)]), stem))


def normal(title):
    """Two spellings of a title give the same here, where they differ in spaces, in underscores or in the first letter of the name or prefix."""
    words = re.sub(rb"[ _]+", b" ", title.strip(b" _\t\n\v\f\r").removeprefix(b":")).split(b":", 1)
    parts = [it.strip(b" _") for it in words]
    return b":".join(it[:1].upper() + it[1:] for it in parts)


def file_name(title):
    """A name for the page of a title."""
    return re.sub(r"[%/\\]", lambda it: f"%{ord(it[0]):02X}", title)


class Folder:
    """A folder whose pages are those of another one, as links, as far as they are wanted by their titles."""

    def __init__(self, folder, is_wanted):
        self.room = tempfile.TemporaryDirectory(prefix="wikiexpand-")
        self.name = self.room.name
        try:
            names = os.listdir(folder)
        except OSError:
            print("wikiexpand: cannot read", file=sys.stderr)
            sys.exit(4)
        for name in names:
            title = title_of(name)
            if title is not None and is_wanted(title):
                os.symlink(os.path.abspath(os.path.join(folder, name)), os.path.join(self.name, name))

    def __enter__(self):
        return self

    def __exit__(self, *_):
        self.room.cleanup()

    def put(self, title, text):
        with open(os.path.join(self.name, file_name(title) + ".wiki"), "wb") as file:
            file.write(text)
