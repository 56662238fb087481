"""The wrong bodies in each crate's folder `planted`: the prover refuses each. Those of a crate are tried together."""

NEEDS = ("libraries",)
