"""Every file of the outside vectors through C, Rust and Python, with the answers of storetool."""

NEEDS = ("library", "storetool")
