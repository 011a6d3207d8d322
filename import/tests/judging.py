"""The independent reading of the rules, as the judge of models: verdicts, and numbers over a trace."""

import random
import sys
from pathlib import Path
from typing import Any

TOP = Path(__file__).resolve().parents[2]
sys.path[:0] = [str(TOP / "import"), str(TOP / "bench" / "independent")]

import model_rules  # type: ignore[import]  # noqa: E402
import model_runs  # type: ignore[import]  # noqa: E402
from model_values import bounds  # type: ignore[import]  # noqa: E402

DATA = Path(__file__).resolve().parent / "data"
MDLC = TOP / "crates" / "mdlc" / "out" / "mdlc"


def verdict(text: str) -> Any:
    """A model's refusal as a text, or the model."""
    return model_rules.verdict(text.encode("latin-1"))


def trace_of(model: Any, seed: int, ticks: int) -> list[list[int]]:
    """Numbers for the Inports of a model: ends of their types, small ones, and any."""
    numbers = random.Random(seed)
    types = [bounds(it.type) for it in model.root.ports(b"Inport")]
    return [[one_of(numbers, least, greatest) for least, greatest in types] for _ in range(ticks)]


def one_of(numbers: random.Random, least: int, greatest: int) -> int:
    """A number of a range, often at its ends or near 0."""
    small = numbers.randint(max(least, -20), min(greatest, 20))
    return numbers.choice([least, greatest, small, small, numbers.randint(least, greatest), numbers.randint(least, greatest)])


def lines_of(text: str, trace: list[list[int]]) -> list[list[int]]:
    """The outputs of an accepted model over a trace."""
    model = verdict(text)
    if isinstance(model, str):
        raise AssertionError(model)
    run = model_runs.Run(model)
    return [[int(it) for it in run.tick(numbers).split()] for numbers in trace]
