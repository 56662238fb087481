"""The packages for Python and Rust over the library for C: their tests, and their examples."""

NEEDS = ("library",)
