"""The public crates: the registry's where cargo can get them without a network, else the small ones of shims/."""

from __future__ import annotations

import os
import subprocess
import tempfile
from pathlib import Path

HERE = Path(__file__).resolve().parent
SHIMS = HERE / "shims"
STD = "rattle_std"

# The public crates of which the sources use nothing that the registry's lack. bitflags is none of them: the sources
# write `impl Flags` by hand with a macro of the kit's port, so its shim is always taken.
PUBLIC = {
    "anyhow": '"1"',
    "arrayvec": '{ version = "0.7", default-features = false }',
    "byteorder": '{ version = "1", default-features = false }',
    "itoa": '"1"',
    "memchr": '{ version = "2", default-features = false }',
    "sha2": '{ version = "0.10", default-features = false }',
    "thiserror": '{ version = ">=1, <3", default-features = false }',
}
# Of those that are always taken and are no public crate, the names of their packages.
PACKAGES = {"bitflags": "rattle_bitflags"}

# Where Debian's packages librust-*-dev put crates, for cargo to take in the place of the registry.
DEBIAN = Path("/usr/share/cargo/registry")
FROM_DEBIAN = f'[source.crates-io]\nreplace-with = "folder"\n\n[source.folder]\ndirectory = "{DEBIAN}"\n'
SECONDS = 60


def registry() -> str | None:
    """The text of a configuration by which cargo gets all public crates without a network, "" where it needs none, or
    None where it can't get them."""
    configs = [""] + ([FROM_DEBIAN] if DEBIAN.is_dir() else [])
    return next((config for config in configs if can_get(config)), None)


def can_get(config: str) -> bool:
    """Whether cargo finds the public crates, and what they use, with this configuration."""
    with tempfile.TemporaryDirectory() as place:
        crate = Path(place)
        (crate / "src").mkdir()
        (crate / "src" / "lib.rs").write_text("")
        needs = "\n".join(f"{name} = {version}" for name, version in PUBLIC.items())
        (crate / "Cargo.toml").write_text(f'[package]\nname = "probe"\nedition = "2021"\n\n[dependencies]\n{needs}\n')
        if config:
            (crate / ".cargo").mkdir()
            (crate / ".cargo" / "config.toml").write_text(config)
        words = ["cargo", "fetch", "--offline", "--quiet"]
        try:
            done = subprocess.run(words, cwd=crate, env=dict(os.environ, CARGO_TARGET_DIR=place),
                                  stdin=subprocess.DEVNULL,
                                  stdout=subprocess.DEVNULL, stderr=subprocess.DEVNULL, timeout=SECONDS)
        except (OSError, subprocess.TimeoutExpired):
            return False
        return done.returncode == 0
