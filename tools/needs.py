"""What a command asks of its words and of the machine, told before any work."""
import sys

if sys.version_info < (3, 9):
    sys.exit("this project needs Python 3.9 or later, and this is %d.%d" % sys.version_info[:2])

import argparse  # noqa: E402
import shutil  # noqa: E402
import subprocess  # noqa: E402

KIT = "rattle-kit-13f logic dac8208d650f15bf"


def words_of(name: str, description: str) -> argparse.ArgumentParser:
    """What reads a command's words: --help prints the description, and words that are wrong end it with 2."""
    shape = argparse.RawDescriptionHelpFormatter
    return argparse.ArgumentParser(prog=name, description=description, formatter_class=shape, allow_abbrev=False)


def fault_of(tool: str) -> str:
    """Why a tool can't be used, or nothing."""
    if not shutil.which(tool):
        return f"{tool} is not on the PATH" + (f": this project needs the Rattle kit '{KIT}'" if tool == "rt" else "")
    if tool != "rt":
        return ""
    found = subprocess.run(["rt", "version"], stdout=subprocess.PIPE, universal_newlines=True).stdout.strip()
    return "" if found == KIT else f"this project is proved with the Rattle kit '{KIT}', and rt version prints '{found}'"


def need(*tools: str) -> None:
    """Ends the command where a tool is missing, and names all that are."""
    faults = [fault for fault in map(fault_of, tools) if fault]
    if faults:
        sys.exit("\n".join(faults))


if __name__ == "__main__":
    need(*sys.argv[1:])
