"""The pages of the repository: their texts, their blocks, and sessions that are run as they are shown."""

import doctest
import io
import re
import unittest

from . import reckoning as by_hand


def page(name):
    return (by_hand.REPOSITORY / name).read_text("utf-8")


def blocks(info, name="docs/HANDBOOK.md"):
    """The texts of a page's blocks with that behind the fence."""
    return re.findall(rf"^```{info}\n(.*?)^```$", page(name), re.M | re.S)


class Session(unittest.TestCase):
    """Failures of a session are told by what doctest writes."""

    def run_session(self, text, name, names):
        test = doctest.DocTestParser().get_doctest(text, names, name, name, 0)
        said = io.StringIO()
        result = doctest.DocTestRunner(verbose=False).run(test, out=said.write, clear_globs=False)
        self.assertEqual(result.failed, 0, said.getvalue())
        names.update(test.globs)
        return result.attempted

    def run_page(self, name):
        """All sessions of a page, one after the other: what they leave, and how many lines were run."""
        names = {}
        count = 0
        for number, block in enumerate(blocks("python", name), 1):
            attempted = self.run_session(block, f"python block {number} of {name}", names)
            self.assertGreater(attempted, 0)
            count += attempted
        return names, count
