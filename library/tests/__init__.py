"""The tests of the library on this machine; python3 -B -m library.tests [MODULE] runs them all."""
