"""What editors install: the file of Visual Studio Code, and the configurations of Neovim and Emacs, from an empty
home."""

from __future__ import annotations

import json
import os
import shutil
import subprocess
import tempfile
import unittest
import xml.etree.ElementTree as xml
import zipfile

from common import calling
from common.blocks import blocks
from . import vsix

HERE = os.path.dirname(os.path.abspath(__file__))
SOURCE = ".frames 16\n.cpus 1\n.page 0x400000\nstart: jmp start\nsys 5\n"
WRONG, CALL = "'jmp' is no instruction; did you mean jal or j?", "call 5, **addVAddr**: v, d, cv, rights"
SCRIPTS = blocks("tests.txt", __file__)


def has_eglot() -> bool:
    words = ["emacs", "--batch", "--eval", "(progn (package-initialize) (require 'eglot))"]
    return bool(shutil.which("emacs")) and subprocess.run(words, stderr=subprocess.DEVNULL).returncode == 0


class TestVsix(unittest.TestCase):
    def test_a_zip_as_the_editor_installs_it(self) -> None:
        with tempfile.TemporaryDirectory() as folder:
            first, second = (os.path.join(folder, name) for name in ("a.vsix", "b.vsix"))
            subprocess.run([os.path.join(HERE, "make_vsix"), "--to", first], check=True)
            vsix.write(second)
            self.assertEqual(calling.contents(first), calling.contents(second))
            with zipfile.ZipFile(first) as archive:
                files = {name: archive.read(name) for name in archive.namelist()}
        told = json.loads(files["extension/package.json"])
        parts = told["contributes"]
        named = [told["main"], *(one["path"] for one in parts["grammars"]),
                 *(one["configuration"] for one in parts["languages"]), "README.md", "LICENSE.txt"]
        for name in named:
            self.assertIn("extension/" + os.path.normpath(name), files)
        types = {one.get("Extension") for one in xml.fromstring(files["[Content_Types].xml"])}
        self.assertLessEqual({os.path.splitext(name)[1] for name in files} - {".xml"}, types)
        schema = "{http://schemas.microsoft.com/developer/vsx-schema/2011}"
        manifest = xml.fromstring(files["extension.vsixmanifest"])
        identity = manifest.find(f"{schema}Metadata/{schema}Identity")
        assert identity is not None
        self.assertEqual([identity.get(name) for name in ("Id", "Version", "Publisher")],
                         [told["name"], told["version"], told["publisher"]])
        for asset in manifest.iter(schema + "Asset"):
            self.assertIn(asset.get("Path"), files)


class TestEditors(unittest.TestCase):
    def home(self, files: dict[str, str]) -> tuple[str, dict[str, str]]:
        """An empty home with these files, and the environment for it."""
        place = tempfile.TemporaryDirectory()
        self.addCleanup(place.cleanup)
        for name, text in {**files, "a.asmx": SOURCE, "a.pip": "boot 16 1\n", "other.s": " nop\n"}.items():
            path = os.path.join(place.name, name)
            os.makedirs(os.path.dirname(path), exist_ok=True)
            with open(path, "w", encoding="utf-8") as file:
                file.write(text)
        kept = {name: value for name, value in os.environ.items() if not name.startswith("XDG_")}
        return place.name, {**kept, "HOME": place.name}

    @unittest.skipUnless(shutil.which("nvim"), "no nvim")
    def test_neovim(self) -> None:
        home, environment = self.home({
            ".config/nvim/init.lua": f'dofile("{HERE}/pip.lua")\n', "try.lua": SCRIPTS["neovim"],
            ".config/nvim/lua/dap.lua": "return { adapters = {}, configurations = {} }\n"})
        done = subprocess.run(["nvim", "--headless", "-c", "luafile try.lua"], cwd=home, env=environment, timeout=120,
                              stdout=subprocess.PIPE, stderr=subprocess.PIPE)
        found = json.loads(done.stdout or done.stderr)
        self.assertEqual(found, ["asmx", WRONG, CALL, "Statement", "pip", "asm",
                                 os.path.join(calling.REPOSITORY, "tools", "debug_adapter")])

    @unittest.skipUnless(has_eglot(), "no emacs with eglot")
    def test_emacs(self) -> None:
        home, environment = self.home({"try.el": SCRIPTS["emacs"]})
        done = subprocess.run(["emacs", "--batch", "--eval", "(package-initialize)", "-l", os.path.join(HERE, "pip.el"),
                               "-l", "try.el"], cwd=home, env=environment, timeout=120, stdout=subprocess.PIPE,
                              stderr=subprocess.PIPE)
        found = json.loads(done.stdout)
        self.assertEqual(found, ["pip-asmx-mode", "pip: " + WRONG, CALL, "pip-mode", "asm-mode"])
