"""The program on files, terminals and closed pipes: each command, option, framing and error."""

NEEDS = ("program",)
