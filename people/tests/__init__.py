"""The tests of the tool; python3 -m people.tests runs them all. They need no bench program."""
