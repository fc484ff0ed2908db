"""What stops a program that does something it must not, or something the interpreter does not know."""


class Fault(Exception):
    """Why the program can't go on, and what it wrote up to there."""

    written = ""
