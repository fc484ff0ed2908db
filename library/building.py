"""Builds libgustlantern.a for this machine from the LLVM module of the crate `kernel`, with the kit's own compiler; prints its folder."""
import os
import sys
from pathlib import Path

from tools.needs import need, words_of
from tools.running import end_quietly
from device.building import OF_THE_KIT, passes, plain_module
from device.kit import ROOT, NotBuilt, command, module_of, tool

HOST = ROOT / "target" / "library" / "host"
ARCHIVE = "libgustlantern.a"
# A program of this machine may be loaded anywhere, so the library is too.
WORDS = (f"--target={os.uname().machine}-unknown-linux-gnu", "-O2", "-fPIC", "-ffunction-sections", "-Wno-override-module",
         *OF_THE_KIT, *passes("-no-x86-call-frame-opt"))


def archive(module: Path, folder: Path = HOST) -> Path:
    """Compiles a module into the archive of a folder, and gives the folder."""
    folder.mkdir(parents=True, exist_ok=True)
    compiled, made = folder / "kernel.o", folder / ARCHIVE
    command([tool("clang"), *WORDS, "-c", "-x", "ir", str(plain_module(module)), "-o", str(compiled)])
    made.unlink(missing_ok=True)
    command([tool("llvm-ar"), "rcsD", str(made), str(compiled)])
    return folder


def main() -> None:
    parser = words_of("python3 -B -m library.building", __doc__)
    parser.add_argument("module", nargs="?", type=Path, metavar="MODULE", help="an LLVM module that was kept; nothing is proved then")
    module = parser.parse_args().module
    need("rt")
    end_quietly()
    try:
        print(archive(module or module_of()))
    except NotBuilt as reason:
        sys.exit(str(reason))


if __name__ == "__main__":
    main()
