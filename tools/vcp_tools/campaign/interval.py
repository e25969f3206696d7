"""The exact interval of Clopper and Pearson for a share, of which some of a number of draws are known."""
from __future__ import annotations

from math import exp, lgamma, log
from typing import Sequence


def clopper_pearson(found: int, tried: int, confidence: float = 0.95) -> tuple[float, float]:
    """The least and the greatest share of which `found` in `tried` draws isn't too unlikely: each end with half of what is left of the confidence."""
    half = (1 - confidence) / 2
    low = 0.0 if found == 0 else _quantile(half, found, tried - found + 1)
    high = 1.0 if found == tried else _quantile(1 - half, found + 1, tried - found)
    return low, high


def share(totals: Sequence[int], of: str, whole: str, seed: int) -> str:
    """The share of a whole that is wrong, told by the totals of what was drawn of it: all groups, `same`, `wrong` and so on."""
    tried, wrong = totals[0], totals[2]
    low, high = clopper_pearson(wrong, tried)
    told = f"wrong: {wrong}, a share between {low:.6f} and {high:.6f} of the {whole}, with 95 % confidence (Clopper and Pearson)"
    return (f"drawn: {tried} of the {of}, seed {seed}; {told}\n"
            "it is a share of faults tried on these rows, each as likely as each other, and no coverage")


def _quantile(wanted: float, a: float, b: float) -> float:
    """The x up to which the beta distribution has this probability."""
    low, high = 0.0, 1.0
    for _ in range(100):
        middle = (low + high) / 2
        low, high = (middle, high) if _beta(middle, a, b) < wanted else (low, middle)
    return (low + high) / 2


def _beta(x: float, a: float, b: float) -> float:
    """The regularized incomplete beta function."""
    if x <= 0 or x >= 1:
        return float(x >= 1)
    front = exp(lgamma(a + b) - lgamma(a) - lgamma(b) + a * log(x) + b * log(1 - x))
    if x < (a + 1) / (a + b + 2):
        return front * _fraction(x, a, b) / a
    return 1 - front * _fraction(1 - x, b, a) / b


def _fraction(x: float, a: float, b: float) -> float:
    """Its continued fraction, by Lentz's method."""
    tiny = 1e-300
    c, d = 1.0, 1 - (a + b) * x / (a + 1)
    d = 1 / (d if abs(d) > tiny else tiny)
    value = d
    for m in range(1, 10_000):
        for step in (m * (b - m) * x / ((a + 2 * m - 1) * (a + 2 * m)), -(a + m) * (a + b + m) * x / ((a + 2 * m) * (a + 2 * m + 1))):
            d = 1 + step * d
            c = 1 + step / c
            d = 1 / (d if abs(d) > tiny else tiny)
            c = c if abs(c) > tiny else tiny
            value *= d * c
        if abs(d * c - 1) < 1e-14:
            break
    return value
