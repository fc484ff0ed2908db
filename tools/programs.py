"""The programs that are proved, as commands run them."""
from typing import List

from tools.noted import program_file
from tools.proving import prove


def program(crate: str) -> List[str]:
    """The words that run a program that is proved."""
    return [str(program_file(crate))]


def proved_program(crate: str) -> List[str]:
    """Proves a program; the words that run it."""
    prove([crate])
    return program(crate)
