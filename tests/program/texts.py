"""The texts that the tests of the program pack."""

from harness import numbers

LINES = b"one\n\nthree\n"
NUMBERS = numbers(20_000)
