"""Small models as text, for tests."""

from collections.abc import Mapping, Sequence

Parameters = Mapping[str, str]


def block_text(kind: str, name: str, parameters: Parameters, inside: str = "") -> str:
    """A Block section."""
    lines = [f'  {key} "{value}"' for key, value in parameters.items()]
    return "\n".join(["Block {", f"  BlockType {kind}", f'  Name "{name}"', *lines, inside, "}"])


def line_text(source: str, port: str, end: str, end_port: str) -> str:
    """A Line section."""
    return f'Line {{\nSrcBlock "{source}"\nSrcPort {port}\nDstBlock "{end}"\nDstPort {end_port}\n}}'


def model_text(blocks: Sequence[str], lines: Sequence[str], before: str = "") -> str:
    """A whole model."""
    return "\n".join(["Model {", 'Name "m"', before, "System {", 'Name "m"', *blocks, *lines, "}", "}", ""])


def around(kind: str, parameters: Parameters, types: Sequence[str], before: str = "") -> str:
    """A model of one block between Inports of these types and an Outport."""
    inports = [block_text("Inport", f"In{at}", {"Port": str(at), "OutDataTypeStr": it}) for at, it in enumerate(types, 1)]
    lines = [line_text(f"In{at}", "1", "Block", str(at)) for at in range(1, len(types) + 1)]
    blocks = [*inports, block_text(kind, "Block", parameters), block_text("Outport", "Out1", {})]
    return model_text(blocks, [*lines, line_text("Block", "1", "Out1", "1")], before)
