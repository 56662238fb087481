"""Every file that a script of the outside vectors or its answers have, to every command of the program that reads."""

NEEDS = ("program",)
