"""Makes the module: exports the crates, puts the module's own beside them, and lets cargo build it."""

from __future__ import annotations

import argparse
import shutil
import subprocess
import tempfile
from pathlib import Path

from common import calling
from common.calling import ensure, there
from exporter.building import Program, run
from judge.building import JUDGE

HERE = Path(__file__).resolve().parent
MODULE = Program("pip_module", "the module", HERE / "module", ("pip_commands", "pip_lab_commands", *JUDGE.uses))


def main() -> None:
    parser = argparse.ArgumentParser(
        description="Both programs as a module of WebAssembly: the same text, not the same proof.")
    parser.add_argument("--to", type=Path, required=True, metavar="FILE", help="the module")
    take_debian(parser)
    calling.started(parser, lambda given: make(given.to, given.debian))


def take_module(parser: argparse.ArgumentParser) -> None:
    """The options of a tool that makes a page, of which one says where the module comes from."""
    one = parser.add_mutually_exclusive_group()
    one.add_argument("--module", type=Path, metavar="FILE", help="the page's module, where make_module has made it")
    take_debian(one)


def take_debian(parser: argparse._ActionsContainer) -> None:
    parser.add_argument("--debian", type=Path, metavar="FOLDER",
                        help="where Debian's rustc-web and what it needs were unpacked; without it the compiler in the "
                             f"PATH has to have the target {TARGET}")


def make(to: Path, debian: Path | None) -> None:
    compiler = there(compiler_of(debian), f"cargo can't make a module: say 'rustup target add {TARGET}', or give "
                     "--debian")
    with tempfile.TemporaryDirectory() as name:
        place = Path(name)
        MODULE.write(place, JUDGE)
        words = ["cargo", "build", "--release", "--quiet", "--target", TARGET, "--target-dir", str(place / "target")]
        run("the module", words, place / "module", {"CARGO_NET_OFFLINE": "true", **compiler})
        shutil.copyfile(place / "target" / TARGET / "release" / f"{MODULE.name}.wasm", to)
    print(f"{to}: {to.stat().st_size} bytes, the same text, not the same proof")


# The compilers that can make a module: one that has the target wasm32, or Debian's, with the library built of its
# sources

TARGET = "wasm32-unknown-unknown"
HOST = "x86_64-unknown-linux-gnu"
Compiler = dict[str, str]            # what cargo has to be told, as variables of the environment
# What is built of Debian's sources, in this order: its source, and the features and crates that it needs.
LIBRARY = (
    ("core", "core", (), ()),
    ("compiler_builtins", "compiler-builtins/compiler-builtins", ("compiler-builtins", "mem"), ("core",)),
    ("alloc", "alloc", (), ("core", "compiler_builtins")),
)


def compiler_of(debian: Path | None) -> Compiler | None:
    """The compiler, or None where there is none that can make a module."""
    if not shutil.which("cargo"):
        return None
    if debian is not None:
        return of_debian(debian.resolve())
    root = sysroot()
    has_target = root and any((root / "lib" / "rustlib" / TARGET / "lib").glob("libcore*.rlib"))
    return {} if has_target else None


def sysroot() -> Path | None:
    """The folder of the compiler that is in the PATH."""
    try:
        done = subprocess.run(["rustc", "--print", "sysroot"], stdout=subprocess.PIPE, stderr=subprocess.DEVNULL)
    except OSError:
        return None
    return Path(done.stdout.decode().strip()) if done.returncode == 0 else None


def of_debian(place: Path) -> Compiler:
    """The compiler of packages that `dpkg -x` has put into a folder. Its library for the target is built there once."""
    rustc = place / "usr" / "bin" / "rustc"
    ensure(rustc.exists(), f"{place} has no usr/bin/rustc: unpack rustc-web and what it needs there")
    compiler = {"RUSTC": str(rustc), "LD_LIBRARY_PATH": str(place / "usr" / "lib" / "x86_64-linux-gnu"),
                f"CARGO_TARGET_{TARGET.upper().replace('-', '_')}_LINKER": linker()}
    if not (place / "usr" / "lib" / "rustlib" / TARGET / "lib" / "liballoc.rlib").exists():
        build_library(place, compiler)
    return compiler


def linker() -> str:
    """rust-lld of the compiler in the PATH, or wasm-ld."""
    root = sysroot()
    own = root / "lib" / "rustlib" / HOST / "bin" / "rust-lld" if root else None
    return there(str(own) if own and own.exists() else shutil.which("wasm-ld"),
                 "there is no linker: neither rust-lld of a compiler in the PATH, nor wasm-ld of the package lld")


def build_library(place: Path, compiler: Compiler) -> None:
    sources = there(next((place / "usr" / "src").glob("rustc-*/library"), None),
                    f"{place} has no usr/src/rustc-*/library: unpack rust-web-src there")
    out = place / "usr" / "lib" / "rustlib" / TARGET / "lib"
    out.mkdir(parents=True, exist_ok=True)
    for name, source, features, needs in LIBRARY:
        words = [compiler["RUSTC"], "--target", TARGET, "--crate-type", "rlib", "--edition", "2024", "--crate-name",
                 name, "-C", "opt-level=3", "-C", "panic=abort", "-C", "metadata=wasm", "-Z",
                 "force-unstable-if-unmarked", "--cap-lints", "allow", "--out-dir", str(out), "-L", str(out)]
        words += [word for feature in features for word in ("--cfg", f'feature="{feature}"')]
        words += [word for need in needs for word in ("--extern", f"{need}={out / f'lib{need}.rlib'}")]
        run(f"{name} for {TARGET}", [*words, str(sources / source / "src" / "lib.rs")], None,
            {"RUSTC_BOOTSTRAP": "1", **compiler})
