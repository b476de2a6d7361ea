"""Releases of a small checkout: what is in one, and each fault for which there is none."""

from __future__ import annotations

import argparse
import contextlib
import io
import os
import re
import shutil
import subprocess
import tempfile
import unittest
from collections.abc import Callable
from pathlib import Path
from typing import Any
from unittest import mock

from common.blocks import blocks
from common.calling import Failed
from pages import rendering
from . import gate, release, repository
from .repository import Checkout

KIT = "kit-1"
HAS_DEB = bool(shutil.which("dpkg-deb"))
FILES = blocks("checkout.txt", __file__)
GATE = FILES[".ci/run"]
FILES[".ci/run"] = GATE.format(more="", status=0)


class Releases(unittest.TestCase):
    def setUp(self) -> None:
        place = tempfile.TemporaryDirectory()
        self.addCleanup(place.cleanup)
        self.addCleanup(setattr, repository, "kit", repository.kit)
        self.use_kit(KIT)
        self.addCleanup(setattr, rendering, "missing", rendering.missing)
        rendering.missing = lambda: ""              # the site is made by a stand-in, and of these a file is taken
        named = mock.patch.dict(os.environ, dict.fromkeys(("PIP_JUDGE", "PIP_STATES", "PIP_CERTIFIER"), __file__))
        self.addCleanup(named.stop)
        named.start()
        self.place = Path(place.name)
        self.found = Checkout(self.place / "here")
        for path, text in FILES.items():
            self.write(path, text)
        for path in (".ci/run", "pip", "lab"):
            (self.found.place / path).chmod(0o755)
        self.found.git("init", "-q")
        self.commit()

    def use_kit(self, kit: str | None) -> None:
        repository.kit = lambda: kit

    def write(self, path: str, text: str) -> None:
        whole = self.found.place / path
        whole.parent.mkdir(parents=True, exist_ok=True)
        whole.write_text(text)

    def commit(self, *files: tuple[str, str]) -> None:
        for path, text in files:
            self.write(path, text)
        self.found.git("add", "-A")
        when = {"GIT_AUTHOR_DATE": "2026-01-01T00:00:00Z", "GIT_COMMITTER_DATE": "2026-01-01T00:00:00Z"}
        subprocess.run(["git", "-c", "user.name=a", "-c", "user.email=a@b", "commit", "-qm", "all"], check=True,
                       cwd=self.found.place, env={**os.environ, **when})

    def gate_of(self, path: str, text: str) -> None:
        """The gate of a commit in which a file is another."""
        self.commit((path, text))
        self.pass_gate()

    def pass_gate(self, kit: str | None = KIT) -> int:
        self.use_kit(kit)
        with contextlib.redirect_stdout(io.TextIOWrapper(io.BytesIO())):
            return gate.run(self.found)

    def made(self, version: str = "1.2", to: str | None = "to", unproved: bool = False, no_page: bool = False) -> Path:
        """Makes a release, and answers its folder; where `to` is None it goes beside the checkout. Its site is made of
        a module that is there."""
        given = argparse.Namespace(version=version, gate=False, unproved=unproved, no_page=no_page, debian=None,
                                   module=self.place / "module", deb=HAS_DEB,
                                   to=None if to is None else self.place / to)
        with contextlib.redirect_stdout(io.StringIO()), contextlib.redirect_stderr(io.StringIO()):
            release.work(given, self.found)
        return self.place / (release.BESIDE if to is None else to) / f"pip-{version}{'-unproved' if unproved else ''}"

    def refused(self, why: str, **given: Any) -> None:
        with self.assertRaisesRegex(Failed, why):
            self.made(**given)
        left = self.place / "to"
        self.assertEqual(list(left.iterdir()) if left.exists() else [], [], "a refused release leaves something")

    def parts(self, made: Path) -> set[str]:
        """The files of a release, whose checksums have to be right."""
        sums = subprocess.run("grep -E '^[0-9a-f]{64}  ' PROOF | sha256sum --check --quiet", shell=True, cwd=made,
                              stdout=subprocess.PIPE)
        self.assertEqual((sums.returncode, sums.stdout), (0, b""))
        return {str(path.relative_to(made)) for path in made.rglob("*") if path.is_file()}

    def test_has_each_part_and_is_the_same_each_time(self) -> None:
        self.assertEqual(self.pass_gate(), 0)
        made, beside = self.made(), self.made(to=None)
        self.assertEqual(self.parts(made), {
            *FILES, "site/index.html", "PROOF", "rust/Cargo.toml", "class/judge/pip_judge",
            "tools/debugger/states/pip_states", "tools/certifier/pip_certifier",
            "crates/pip/out/pip", "crates/pip/out/sources-seen", "crates/pip_lab/out/pip_lab",
            "crates/pip_lab/out/sources-seen"})
        self.assertEqual((made / "crates/pip_lab/out/pip_lab").read_text(), "the lab, built\n")
        told = (made / "PROOF").read_text()
        self.assertEqual([line.split("  ")[1] for line in told.splitlines() if re.match("[0-9a-f]{64}  ", line)],
                         ["crates/pip/out/pip", "crates/pip_lab/out/pip_lab", "site/index.html", *self.found.files()])
        for part in ("pip 1.2\n", self.found.commit(), KIT, "3 passed, 0 failed", "check: 2 of 2 checks pass",
                     "- The kit."):
            self.assertIn(part, told)
        self.assertNotIn("has no site", told)
        for name in ("pip-1.2.tar.gz", *["pip-kernel_1.2.deb"] * HAS_DEB):
            self.assertEqual(*(path.with_name(name).read_bytes() for path in (made, beside)))

    def test_without_a_site_proof_says_so(self) -> None:
        self.pass_gate()
        made = self.made(no_page=True)
        self.assertNotIn("site/index.html", self.parts(made))
        self.assertIn("This release has no site/", (made / "PROOF").read_text())
        log = self.found.record.with_suffix(".log")
        self.assertIn("words: --all\n", log.read_text())
        with contextlib.redirect_stdout(io.TextIOWrapper(io.BytesIO())):
            gate.run(self.found, no_page=True)
        self.assertIn("words: --all --but playground playground-browser site\n", log.read_text())

    def test_an_unproved_one_needs_no_gate_and_says_so(self) -> None:
        self.refused("say ./pip --unproved script", unproved=True)
        programs = "out/rust/target/release/pip", "out/rust/target/release/pip_lab"
        self.write(programs[0], "by cargo\n")
        self.refused("no program at .*/release/pip_lab that is as new", unproved=True)
        self.write(programs[1], "the lab, by cargo\n")
        made = self.made(unproved=True)
        parts, told = self.parts(made), (made / "PROOF").read_text()
        self.assertLess({"UNPROVED", "PROOF", "out/sources-seen", *programs}, parts)
        self.assertFalse({path for path in parts if path.startswith("crates/")})
        self.assertTrue(told.startswith("pip 1.2, unproved\n\nNothing is proved of the programs "
                                        f"{' and '.join(programs)}: "), told)
        self.assertNotIn("passed", told)

    def test_a_gate_that_never_ends_leaves_no_record(self) -> None:
        self.pass_gate()
        with self.assertRaisesRegex(Failed, "isn't clean: README.md"):
            self.gate_of(".ci/run", GATE.format(more="echo dirty > README.md", status=0))
        self.found.git("checkout", "-q", "README.md")
        self.refused("no run of the gate is recorded")

    def test_each_fault_is_refused(self) -> None:
        for why, spoil in FAULTS.items():
            with self.subTest(why=why):
                self.setUp()
                self.pass_gate()
                spoil(self)
                self.refused(why)

    def test_a_version_that_is_none_or_is_there_and_a_folder_in_the_checkout(self) -> None:
        self.refused("a version is numbers", version="../x")
        self.refused("VERSION says 1.2", version="1.3")
        self.pass_gate()
        for to in ("here", "here/out/release"):
            self.refused("is inside the checkout", to=to)
        self.made()
        with self.assertRaisesRegex(Failed, "is there already"):
            self.made()


# Why a release is refused after this has come to a checkout whose gate has passed
FAULTS: dict[str, Callable[[Releases], object]] = {
    "isn't clean: README.md": lambda test: test.write("README.md", "# Another\n"),
    "isn't clean: new.txt": lambda test: test.write("new.txt", "new\n"),
    "no run of the gate is recorded": lambda test: test.found.record.unlink(),
    "is no record of a gate": lambda test: test.found.record.write_text('{"status": 0}'),
    "pip/out/pip isn't the program that the gate built": lambda test: test.write("crates/pip/out/pip", "another\n"),
    "pip_lab isn't the program that the gate built": lambda test: test.write("crates/pip_lab/out/pip_lab", "another\n"),
    "there is no program at .*/crates/pip/": lambda test: (test.found.place / "crates/pip/out/pip").unlink(),
    "there is no program at .*/crates/pip_lab/":
        lambda test: (test.found.place / "crates/pip_lab/out/pip_lab").unlink(),
    "with the kit kit-1, and kit-2 is here": lambda test: test.use_kit("kit-2"),
    "with the kit None": lambda test: test.pass_gate(kit=None),
    "has other files": lambda test: test.commit(("README.md", "# Another\n")),
    "ended with status 1: check: 2 of 2": lambda test: test.gate_of(".ci/run", GATE.format(more="", status=1)),
    "the site can't be made: no compiler":
        lambda test: test.gate_of("class/site", "import sys\nsys.exit('no compiler')\n"),
    "the site isn't there": lambda test: test.gate_of("class/site", "pass\n"),
    "the export can't be made: it differs":
        lambda test: test.gate_of("dev/export", "import sys\nsys.exit('it differs')\n"),
}
