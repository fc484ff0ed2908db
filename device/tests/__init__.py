"""Tests of the interpreter, of what is compiled for the device, and of how it is built."""
