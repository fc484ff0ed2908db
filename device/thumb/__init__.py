"""An interpreter of the instructions of a Cortex-M0+ (ARMv6-M) and a Cortex-M3 (ARMv7-M), with counts of what a program takes."""
