"""Tests of the commands and what they share, of the comparison, and of how the proved bench reads and writes."""
