"""The library on a device: compiled for a Cortex-M0+ and a Cortex-M3, run by an interpreter, and measured.

    python3 -B -m device            proves the library and plays all of sessions/ on both processors; --calls has what events take
    python3 -B -m device.thumb ELF  runs a linked program; --calls has what each call of the library takes
    python3 -B -m device.tests      runs the tests, which need no proof
"""
