"""A browser without a window, where one is installed that works: what a page looks like there.

Without one `find` gives None, and the tests look at pages by parsing them alone."""

import functools
import shutil
import struct
import subprocess
import tempfile
import zlib
from pathlib import Path

_NAMES = ("chromium", "chromium-browser", "google-chrome")
_WORDS = (
    "--headless", "--no-sandbox", "--disable-gpu", "--disable-dev-shm-usage", "--hide-scrollbars",
    "--virtual-time-budget=5000",
)


def _run(program, words, timeout=120):
    with tempfile.TemporaryDirectory() as folder:
        command = [program, *_WORDS, f"--user-data-dir={folder}", *words]
        return subprocess.run(command, stdin=subprocess.DEVNULL, capture_output=True, timeout=timeout)


@functools.lru_cache(None)
def find():
    """The browser's path, or None where none is installed that reads a page."""
    for name in _NAMES:
        program = shutil.which(name)
        if program:
            try:
                came = _run(program, ["--dump-dom", "data:text/html,<p>one</p>"], 60)
            except (OSError, subprocess.TimeoutExpired):
                continue
            if b"<p>one</p>" in came.stdout:
                return program
    return None


def dump(page):
    """What the browser makes of a page's text: its document, after scripts."""
    with tempfile.TemporaryDirectory() as folder:
        path = Path(folder) / "page.html"
        path.write_text(page, "utf-8")
        return _run(find(), ["--dump-dom", path.as_uri()]).stdout.decode("utf-8")


def screenshot(text, suffix, width=640, height=480):
    """The bytes of a picture of a page or an SVG file."""
    with tempfile.TemporaryDirectory() as folder:
        path, picture = Path(folder) / f"page{suffix}", Path(folder) / "picture.png"
        path.write_text(text, "utf-8")
        _run(find(), [f"--window-size={width},{height}", f"--screenshot={picture}", path.as_uri()])
        return picture.read_bytes()


def ink(png):
    """The share of the bytes, in a PNG's rows, that differ from what the row before or beside lets expect: 0 for a
    picture of one colour."""
    assert png[:8] == b"\x89PNG\r\n\x1a\n"
    data, at = b"", 8
    while at < len(png):
        length, kind = struct.unpack(">I4s", png[at : at + 8])
        data += png[at + 8 : at + 8 + length] if kind == b"IDAT" else b""
        at += length + 12
    rows = zlib.decompress(data)
    return 1 - rows.count(0) / len(rows)
