"""Files on disk in trouble: writers that are killed, full devices, races, false claims, more bytes than memory."""

NEEDS = ("program",)
