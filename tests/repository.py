"""What the scripts of tests have of tools/crates.py: the repository's folder and files, its crates, and how the prover is called."""
import os
import sys

sys.path.append(os.path.join(os.path.dirname(os.path.realpath(__file__)), "..", "tools"))
from crates import BUILT, TOP, files, kit, lacking, read, read_bytes, read_crates, rlib, with_below, words, write, write_bytes  # noqa: E402

__all__ = ["BUILT", "TOP", "files", "kit", "lacking", "read", "read_bytes", "read_crates", "rlib", "with_below", "words", "write", "write_bytes"]
