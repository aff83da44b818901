"""The plain Rust programs of twin/, built by cargo."""
import os
import pathlib
import shutil
import subprocess

TWIN = pathlib.Path(__file__).resolve().parent / "twin"


def plain(name, folder):
    """The built program of the name, in the folder, or nothing where there is no cargo."""
    if shutil.which("cargo") is None:
        return None
    words = ["cargo", "build", "-q", "--release", "--bin", name,
             "--manifest-path", str(TWIN / "Cargo.toml"), "--target-dir", folder]
    subprocess.run(words, check=True)
    return os.path.join(folder, "release", name)
