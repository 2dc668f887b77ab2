"""The extension for VS Code: its file has what an installation reads, and its script starts the adapter."""
from __future__ import annotations

import json
import shutil
import subprocess
import sys
import tempfile
import unittest
import zipfile
from pathlib import Path
from xml.etree import ElementTree

import feulgama
from tests.support import CLIENT

FOLDER = CLIENT / "editors/vscode"
NODE = shutil.which("node") or shutil.which("nodejs")
# The parts of VS Code's interface that the script calls; it prints what they are given.
STAND_IN = """
const Module = require("module");
const load = Module._load;
const found = {
    debug: {
        registerDebugAdapterDescriptorFactory: (type, factory) => { found.type = type; found.factory = factory; return 1; },
    },
    workspace: {
        getConfiguration: (name) => ({ get: (key) => name + "." + key === "feulgama.command" && ["feulgama", "-x"] }),
    },
    DebugAdapterExecutable: class { constructor(command, args) { this.command = command; this.args = args; } },
};
Module._load = (name, ...rest) => name === "vscode" ? found : load(name, ...rest);
const context = { subscriptions: [] };
require(process.argv[2]).activate(context);
const made = found.factory.createDebugAdapterDescriptor({});
console.log(JSON.stringify([found.type, context.subscriptions.length, made.command, made.args]));
"""


class Extension(unittest.TestCase):
    def setUp(self) -> None:
        self.folder = Path(self.enterContext(tempfile.TemporaryDirectory()))

    def built(self, name: str) -> Path:
        file = self.folder / name
        subprocess.run([sys.executable, FOLDER / "build.py", file], check=True, capture_output=True)
        return file

    def test_file(self) -> None:
        with zipfile.ZipFile(self.built("one.vsix")) as archive:
            self.assertEqual(set(archive.namelist()), {"extension.vsixmanifest", "[Content_Types].xml",
                                                       "extension/package.json", "extension/extension.js"})
            package = json.loads(archive.read("extension/package.json"))
            manifest = ElementTree.fromstring(archive.read("extension.vsixmanifest"))
            types = ElementTree.fromstring(archive.read("[Content_Types].xml"))
        space = "{http://schemas.microsoft.com/developer/vsx-schema/2011}"
        identity = manifest.find(f"{space}Metadata/{space}Identity")
        asset = manifest.find(f"{space}Assets/{space}Asset")
        assert identity is not None and asset is not None
        self.assertEqual([identity.get(key) for key in ("Id", "Version", "Publisher")],
                         [package["name"], package["version"], package["publisher"]])
        self.assertEqual(asset.get("Path"), "extension/package.json")
        self.assertEqual(package["version"], feulgama.__version__)
        self.assertEqual(package["main"], "./extension.js")
        self.assertEqual({one.get("Extension") for one in types}, {".json", ".js", ".vsixmanifest"})

    def test_the_same_each_time(self) -> None:
        self.assertEqual(self.built("one.vsix").read_bytes(), self.built("two.vsix").read_bytes())

    @unittest.skipIf(NODE is None, "needs node")
    def test_script(self) -> None:
        """Over a stand-in for VS Code, which is not there."""
        stand_in = self.folder / "stand_in.js"
        stand_in.write_text(STAND_IN)
        run = subprocess.run([str(NODE), stand_in, FOLDER / "extension.js"], check=True, capture_output=True, text=True)
        self.assertEqual(json.loads(run.stdout), ["feulgama", 1, "feulgama", ["-x", "dap"]])
