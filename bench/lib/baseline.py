"""Builds the baseline of bench/baseline: a Rust program with hash maps, serde_json and httparse, which over a file writes through
SQLite's library in C.

It is built over Debian's packages where they are installed: librust-serde-json-dev, librust-serde-derive-dev,
librust-httparse-dev and librust-form-urlencoded-dev; else over cargo's registry.
"""
import shutil
import subprocess
from pathlib import Path

from lib.programs import TOP

PACKAGES = Path("/usr/share/cargo/registry")
OVER_PACKAGES = ["--config", 'source.crates-io.replace-with="packages"', "--config", f'source.packages.directory="{PACKAGES}"']


def built_baseline(folder, features=()):
    """Builds the baseline, with the feature `file` where SQLite's library is to be linked; nothing where it can't be."""
    # (cargo writes into the project's folder)
    shutil.copytree(TOP / "bench" / "baseline", folder, ignore=shutil.ignore_patterns("target", "Cargo.lock"))
    # (what it stands on is compiled once for all that are built beside each other)
    target = folder.parent / "target"
    words = ["cargo", "build", "--release", "--features", ",".join(features), "--target-dir", str(target)]
    try:
        ran = subprocess.run([*words, *OVER_PACKAGES * PACKAGES.exists()], cwd=folder, capture_output=True, text=True)
    except OSError:
        print("no cargo: the baseline isn't measured")
        return None
    if ran.returncode:
        print("the baseline can't be built here:", ran.stderr.strip().splitlines()[-1])
        return None
    return shutil.copy(target / "release" / "baseline", folder / "program")
