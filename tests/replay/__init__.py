"""What a power cut leaves of a file that is published: its calls to the system, replayed up to each point."""

NEEDS = ("program",)
