"""The package as a file, and the sources that only it has."""
from __future__ import annotations

import fnmatch
import json
import os
import re
import shutil
from pathlib import Path

from checks.images import TOP
from checks.machine import Ended, command, must

from .base import BUILD, Check

DEBIAN = TOP / "packaging/debian"
COMPLETIONS = TOP / "packaging/completions"
COMMANDS = {"wasm-shim": ("serve", "replay", "asm", "check", "run"),
            "feulgama": ("debug", "attach", "timeline", "dap", "lower")}
GO_PROGRAMS = ("feulgama/feulgama-oci", "feulgama/containerd-shim-feulgama-v1")
# An option at the beginning of its line of a help, and a second name of it.
OPTION = re.compile(r"^ +(-[\w-]+)(?:[ =][A-Z<][^\s,]*)?(?:, (-[\w-]+))?", re.MULTILINE)
OFFER = """source "$1"; shift; COMP_WORDS=("$@" -); COMP_CWORD=$#
_${1//-/_}; printf '%s\\n' "${COMPREPLY[@]}"
COMP_WORDS=("$@" --); _${1//-/_}; printf '%s\\n' "${COMPREPLY[@]}"
"""


def options_of_help(text: str) -> set[str]:
    """The options that a help lists."""
    _, _, listed = text.partition("ptions:\n")
    return {name for found in OPTION.findall(listed) for name in found if name}


class Package(Check):
    """The built package."""

    def build(self, program: Path) -> Ended:
        """What becomes of a build of a program."""
        return command([BUILD, self.setting.machine.folder / "other"], {**os.environ, "PROGRAM": str(program)}, seconds=1200)

    def help(self, program: str, *words: str) -> str:
        """The help of a command."""
        path = self.setting.program if program == "wasm-shim" else TOP / "clients/python/bin/feulgama"
        return must([path, *words, "--help"])

    def test_1_name(self) -> None:
        """the name and the fields have the version of the program"""
        version = must([self.setting.program, "--version"]).split()[1]
        self.assertEqual(self.setting.package.name, f"feulgama_{version}_amd64.deb")
        fields = must(["dpkg-deb", "--field", self.setting.package, "Version", "Architecture"])
        self.assertEqual(fields, f"Version: {version}\nArchitecture: amd64\n")

    def test_2_lintian(self) -> None:
        """lintian finds neither an error nor a warning, but for the one of packaging/debian/feulgama.lintian-overrides"""
        ended = command(["lintian", "--allow-root", "--no-cfg", "--fail-on=error,warning", self.setting.package], seconds=600)
        self.assertEqual((ended.status, ended.out), (0, ""))

    def test_3_unproved(self) -> None:
        """a program that was not proved is refused, and so is none"""
        unproved = self.setting.machine.folder / "wasm_shim.unproved"
        shutil.copy(self.setting.program, unproved)
        for program, reason in ((unproved, "was not proved"), (unproved.with_name("none"), "is not there")):
            ended = self.build(program)
            self.assertEqual((ended.status, ended.out), (1, ""))
            self.assertIn(f"{program} {reason}", ended.err)

    def test_4_copyright(self) -> None:
        """the copyright names each library that the programs of Go hold, and no other"""
        named = re.findall(r"^Files: (\S+)$", (DEBIAN / "copyright").read_text(), re.MULTILINE)
        patterns = {pattern for pattern in named if "." in pattern.split("/")[0]}
        path = f"/usr/share/gocode:{TOP}/clients/containerd:{TOP}/clients/oci"
        as_built = {"GO111MODULE": "off", "GOPROXY": "off", "GOFLAGS": "", "CGO_ENABLED": "0", "GOPATH": path}
        listed = must(["go", "list", "-deps", "-json=ImportPath,Standard,GoFiles", *GO_PROGRAMS], {**os.environ, **as_built},
                      seconds=300)
        held = [f"{one['ImportPath']}/{file}" for one in json.loads("[" + listed.replace("}\n{", "},{") + "]")
                if not one.get("Standard") and not one["ImportPath"].startswith("feulgama/")
                for file in one.get("GoFiles", [])]
        self.assertGreater(len(held), 100)
        self.assertEqual([file for file in held if not any(fnmatch.fnmatchcase(file, pattern) for pattern in patterns)], [])
        self.assertEqual([pattern for pattern in patterns if not fnmatch.filter(held, pattern)], [])

    def test_5_completions_for_bash(self) -> None:
        """bash offers the commands and the options that each help lists"""
        offered, listed = {}, {}
        for program, commands in COMMANDS.items():
            for words in ((program,), *((program, command) for command in commands)):
                said = must(["bash", "-c", OFFER, "bash", COMPLETIONS / "bash" / program, *words]).split()
                offered[words] = {word for word in said if word.startswith("-")}
                listed[words] = options_of_help(self.help(*words))
        self.assertEqual(offered, listed)

    def test_6_completions_for_zsh(self) -> None:
        """zsh reads its files, which name the commands and the options that each help lists"""
        for program, commands in COMMANDS.items():
            file = COMPLETIONS / "zsh" / f"_{program}"
            must(["zsh", "-n", file])
            text = file.read_text()
            listed = {option for words in ((), *((command,) for command in commands))
                      for option in options_of_help(self.help(program, *words))}
            said = set(re.findall(r"(?<![\w-])--?[a-zA-Z][\w-]*(?=[\[{},'])", text))
            self.assertEqual(said, listed)
            self.assertEqual(set(re.findall(r"^    (\w+)\\:", text, re.MULTILINE)) - {"help"}, set(commands))
