#!/usr/bin/env python3
"""Writes the extension for VS Code as one file, which `code --install-extension FILE` takes.

    build.py [FILE]

Without FILE it is feulgama-VERSION.vsix in the current folder. A VSIX is a ZIP of the extension's files, with a manifest
and a list of types. The same sources make the same bytes.
"""
from __future__ import annotations

import json
import sys
import zipfile
from pathlib import Path
from xml.sax.saxutils import quoteattr, escape

HERE = Path(__file__).resolve().parent
FILES = ("package.json", "extension.js")
TYPES = """<?xml version="1.0" encoding="utf-8"?>
<Types xmlns="http://schemas.openxmlformats.org/package/2006/content-types">
  <Default Extension=".json" ContentType="application/json"/>
  <Default Extension=".js" ContentType="application/javascript"/>
  <Default Extension=".vsixmanifest" ContentType="text/xml"/>
</Types>
"""


def manifest(package: dict[str, object]) -> str:
    """The manifest, of what package.json says."""
    name, version, publisher = (quoteattr(str(package[key])) for key in ("name", "version", "publisher"))
    engine = package["engines"]
    needs = quoteattr(str(engine["vscode"]) if isinstance(engine, dict) else "*")
    return f"""<?xml version="1.0" encoding="utf-8"?>
<PackageManifest Version="2.0.0" xmlns="http://schemas.microsoft.com/developer/vsx-schema/2011">
  <Metadata>
    <Identity Language="en-US" Id={name} Version={version} Publisher={publisher}/>
    <DisplayName>{escape(str(package["displayName"]))}</DisplayName>
    <Description xml:space="preserve">{escape(str(package["description"]))}</Description>
    <Categories>Debuggers</Categories>
    <Properties>
      <Property Id="Microsoft.VisualStudio.Code.Engine" Value={needs}/>
    </Properties>
  </Metadata>
  <Installation>
    <InstallationTarget Id="Microsoft.VisualStudio.Code"/>
  </Installation>
  <Dependencies/>
  <Assets>
    <Asset Type="Microsoft.VisualStudio.Code.Manifest" Path="extension/package.json" Addressable="true"/>
  </Assets>
</PackageManifest>
"""


def build(file: Path, package: dict[str, object]) -> None:
    """Writes the file."""
    parts = {"extension.vsixmanifest": manifest(package).encode(), "[Content_Types].xml": TYPES.encode(),
             **{f"extension/{name}": (HERE / name).read_bytes() for name in FILES}}
    with zipfile.ZipFile(file, "w", zipfile.ZIP_DEFLATED) as archive:
        for name, data in parts.items():
            archive.writestr(zipfile.ZipInfo(name), data, zipfile.ZIP_DEFLATED)


def main(words: list[str]) -> int:
    package = json.loads((HERE / "package.json").read_text())
    file = Path(words[0]) if words else Path(f"{package['name']}-{package['version']}.vsix")
    try:
        build(file, package)
    except OSError as error:
        print(f"build.py: {file}: {error.strerror}", file=sys.stderr)
        return 1
    print(file)
    return 0


if __name__ == "__main__":
    sys.exit(main(sys.argv[1:]))
