"""What the replaced blocks give by Simulink's rules, in exact fractions, written apart from the program."""

from collections.abc import Callable
from dataclasses import dataclass
from fractions import Fraction
from math import ceil, floor, trunc

ROUNDINGS: dict[str, Callable[[Fraction], int]] = {
    "Floor": floor,
    "Ceiling": ceil,
    "Zero": trunc,
    "Nearest": lambda it: floor(it + Fraction(1, 2)),
    "Round": lambda it: floor(it + Fraction(1, 2)) if it >= 0 else ceil(it - Fraction(1, 2)),
    "Convergent": round,
}
COMPARISONS: dict[str, Callable[[Fraction, Fraction], bool]] = {
    "==": lambda one, other: one == other,
    "~=": lambda one, other: one != other,
    "<": lambda one, other: one < other,
    "<=": lambda one, other: one <= other,
    ">": lambda one, other: one > other,
    ">=": lambda one, other: one >= other,
}


@dataclass(frozen=True)
class Fixed:
    """A fixed-point type."""

    signed: bool
    bits: int
    point: int

    @property
    def text(self) -> str:
        """As a parameter writes it."""
        return f"fixdt({int(self.signed)},{self.bits},{self.point})"

    def real(self, stored: int) -> Fraction:
        """What a stored number means."""
        return Fraction(stored, 1 << self.point)

    def stored(self, exact: Fraction, rounding: str = "Nearest", saturates: bool = True) -> int:
        """The stored number of an exact one."""
        whole = ROUNDINGS[rounding](exact * 2**self.point)
        span = 1 << self.bits
        least = -(span // 2) if self.signed else 0
        if saturates:
            return max(least, min(least + span - 1, whole))
        while not least <= whole < least + span:
            whole += span * (1 if whole < least else -1) * max(1, abs(whole) // span - 1)
        return whole


def saturated(exact: Fraction, wanted: Fixed, rounding: str, lower: Fraction, upper: Fraction) -> int:
    """Saturation: the limit, in the output's type, where the input is beyond it, else the input in the output's type."""
    least, greatest = wanted.real(wanted.stored(lower)), wanted.real(wanted.stored(upper))
    if exact > greatest:
        return wanted.stored(greatest)
    return wanted.stored(least) if exact < least else wanted.stored(exact, rounding)


class Relay:
    """A relay with its state."""

    def __init__(self, on: Fraction, off: Fraction) -> None:
        self.on, self.off, self.is_on = on, off, False

    def step(self, value: Fraction) -> bool:
        """Whether it is on now."""
        if value >= self.on:
            self.is_on = True
        elif value <= self.off:
            self.is_on = False
        return self.is_on


@dataclass
class Integrator:
    """A forward Euler integrator: y(n) = x(n), x(n+1) = x(n) + K T u(n), each in the output's type."""

    wanted: Fixed
    gain: Fraction
    rounding: str
    saturates: bool
    state: int
    lower: Fraction | None = None
    upper: Fraction | None = None

    def step(self, value: Fraction) -> int:
        """The output now; the state moves on."""
        given = self.state
        step = self.wanted.real(self.wanted.stored(self.gain * value, self.rounding, self.saturates))
        total = self.wanted.real(self.wanted.stored(self.wanted.real(given) + step, self.rounding, self.saturates))
        if self.upper is not None:
            total = min(total, self.wanted.real(self.wanted.stored(self.upper)))
        if self.lower is not None:
            total = max(total, self.wanted.real(self.wanted.stored(self.lower)))
        self.state = self.wanted.stored(total)
        return given
