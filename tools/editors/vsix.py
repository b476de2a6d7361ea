"""The extension as a file that Visual Studio Code installs: a zip of its folder with two lists of what is in it."""

from __future__ import annotations

import argparse
import json
import os
import zipfile
from collections.abc import Iterator
from typing import Any
from xml.sax.saxutils import escape, quoteattr

from common import calling

HERE = os.path.dirname(os.path.abspath(__file__))
BEGUN = (1980, 1, 1, 0, 0, 0)        # the time of each file, so that the same files make the same bytes
TYPES = {".json": "application/json", ".js": "application/javascript", ".md": "text/markdown", ".txt": "text/plain",
         ".vsixmanifest": "text/xml"}


def manifest(told: Any) -> str:
    """The list for the editor, by package.json."""
    form = calling.contents(os.path.join(HERE, "manifest.xml")).decode()
    return form.format(name=quoteattr(told["name"]), version=quoteattr(told["version"]),
                       publisher=quoteattr(told["publisher"]), display=escape(told["displayName"]),
                       description=escape(told["description"]), categories=escape(",".join(told["categories"])),
                       engine=quoteattr(told["engines"]["vscode"]))


def content_types() -> str:
    kinds = "".join(f'<Default Extension="{ending}" ContentType="{kind}"/>' for ending, kind in TYPES.items())
    return ('<?xml version="1.0" encoding="utf-8"?>\n'
            f'<Types xmlns="http://schemas.openxmlformats.org/package/2006/content-types">{kinds}</Types>\n')


def files() -> Iterator[tuple[str, bytes]]:
    """The files of the zip by their paths in it: the two lists, and what package.json names."""
    told = json.loads(calling.contents(os.path.join(HERE, "package.json")))
    yield "extension.vsixmanifest", manifest(told).encode()
    yield "[Content_Types].xml", content_types().encode()
    parts = told["contributes"]
    named = {told["main"], *(one["configuration"] for one in parts["languages"]),
             *(one["path"] for one in parts["grammars"])}
    for name in ["README.md", "package.json", *sorted(os.path.normpath(name) for name in named)]:
        yield f"extension/{name}", calling.contents(os.path.join(HERE, name))
    yield "extension/LICENSE.txt", calling.contents(os.path.join(calling.REPOSITORY, "LICENSE"))


def write(path: str) -> None:
    with zipfile.ZipFile(path, "w", zipfile.ZIP_DEFLATED) as archive:
        for name, data in files():
            archive.writestr(zipfile.ZipInfo(name, BEGUN), data, zipfile.ZIP_DEFLATED)


def main() -> None:
    parser = argparse.ArgumentParser(description="The extension for Visual Studio Code as a file to install.")
    parser.add_argument("--to", required=True, metavar="FILE", help="the file to write, which ends with .vsix")
    given = parser.parse_args()
    calling.guarded("make_vsix", lambda: write(given.to))
