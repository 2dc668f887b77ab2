"""The sessions that are stored as examples."""
from __future__ import annotations

import os
import subprocess
import unittest

from feulgama.debug import dwarf
from tests.support import CLIENT, SHIM

FOLDER = CLIENT / "examples"


class Stored(unittest.TestCase):
    maxDiff = None

    @unittest.skipUnless(dwarf.IS_THERE, "needs python3-pyelftools")
    def test_sessions(self) -> None:
        scripts = sorted(FOLDER.glob("*.debug"))
        self.assertEqual([script.stem for script in scripts], ["json", "tree", "words"])
        for script in scripts:
            with self.subTest(script.stem), script.open() as lines:
                run = subprocess.run([CLIENT / "bin/feulgama", "debug", f"{script.stem}.wasm"], stdin=lines,
                                     stdout=subprocess.PIPE, check=True, cwd=FOLDER, text=True,
                                     env={**os.environ, "FEULGAMA_SHIM": SHIM})
                self.assertEqual(run.stdout, script.with_suffix(".expected").read_text())
