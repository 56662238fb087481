"""Shell and Python scripts as shellcheck and flake8 see them."""

NEEDS = ()
