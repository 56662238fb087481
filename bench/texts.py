"""Figures as texts. One that the rounds don't tell within 15 % says so: a table has the interval of the median in
brackets, and a sentence has `about` before the figure."""

from typing import Callable, List, Optional

from figures import Spread

Text = Callable[[float], str]


def number_text(value: float) -> str:
    """Nanoseconds for each document, with as many digits as say something."""
    return f"{value:.1f}" if value < 10 else f"{value:.0f}"


def time_text(value: float) -> str:
    """Nanoseconds as a time with three digits, in the unit that suits it."""
    for size, unit in [(1e9, "s"), (1e6, "ms"), (1e3, "µs")]:
        if value >= size:
            return f"{value / size:.3g} {unit}"
    return f"{value:.3g} ns"


def rounded(value: float) -> float:
    """The value with two digits that say something."""
    return float(f"{value:.1e}")


def two_digits(value: float) -> str:
    """A number with two digits that say something."""
    return f"{rounded(value):.1f}" if rounded(value) < 10 else f"{rounded(value):.0f}"


def two_digit_time(value: float) -> str:
    """Nanoseconds as a time with two digits, in the unit that suits it."""
    for size, unit in [(1e9, "s"), (1e6, "ms"), (1e3, "µs")]:
        if rounded(value) >= size:
            return f"{two_digits(value / size)} {unit}"
    return f"{two_digits(value)} ns"


def factor_text(value: float) -> str:
    """A ratio, with as many digits as tell it from 1."""
    return f"{value:.2f}" if value < 10 else f"{value:.0f}"


def in_table(spread: Optional[Spread], text: Text) -> str:
    """The median, with its interval where that is wide."""
    if spread is None:
        return ""
    if spread.is_even:
        return text(spread.middle)
    return f"{text(spread.middle)} [{text(spread.low)}, {text(spread.high)}]"


def in_sentence(spread: Spread, text: Text) -> str:
    """The median, with `about` before it where its interval is wide."""
    return ("" if spread.is_even else "about ") + text(spread.middle)


def between(spreads: List[Spread], text: Text) -> str:
    """From the least median to the largest."""
    least, most = min(spreads, key=lambda one: one.middle), max(spreads, key=lambda one: one.middle)
    if text(least.middle) == text(most.middle):
        return in_sentence(least, text)
    about = "" if least.is_even and most.is_even else "about "
    return f"{about}{text(least.middle)} to {text(most.middle)}"


def listed(names: List[str]) -> str:
    """Names as a sentence has them."""
    return " and ".join([", ".join(names[:-1]), names[-1]] if len(names) > 1 else names)
