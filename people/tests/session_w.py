"""Session W, the worked example of the rules: its text, its records byte by byte from the layout, and its lines."""

TEXT = """\
fresh 4294967295 3=100
start 0 3:2
start 1 3:1 5:0
call 1 3 read
call 0 3 spend 40
call 0 3 add 5
call 0 3 read
call 1 3 read
commit 1 8
release 1 5
rollback 0 7
commit 1 8
rollback 1 9
"""

RECORDS = [bytes.fromhex(digits) for digits in (
    "64 00 00 01" + "FF FF FF FF" + "00 00 00 00" * 3 + "64 00 00 00" + "00 00 00 00" * 20,
    "04 00 01 01" + "00 01 03 02",
    "06 00 01 01" + "01 02 03 01 05 00",
    "08 00 02 01" + "01 03 00 00 00 00 00 00",
    "08 00 02 01" + "00 03 03 00 28 00 00 00",
    "08 00 02 01" + "00 03 02 00 05 00 00 00",
    "08 00 02 01" + "00 03 00 00 00 00 00 00",
    "08 00 02 01" + "01 03 00 00 00 00 00 00",
    "05 00 04 01" + "01 08 00 00 00",
    "02 00 03 01" + "01 05",
    "05 00 05 01" + "00 07 00 00 00",
    "05 00 04 01" + "01 08 00 00 00",
    "05 00 05 01" + "01 09 00 00 00",
)]
BYTES = b"".join(RECORDS)

LINES = ["1 0 0", "2 0 0", "3 10 0", "4 0 1", "5 0 65", "6 8 0", "7 0 65", "8 10 0", "9 0 0", "10 0 15", "11 9 0",
         "12 0 20"]

# What event 10 writes.
END_RECORD = bytes.fromhex("0B 00 02 02 07 00 00 00 00 01 03 00 00 00 00")
