"""Accepted models as Lustre: what the built program's `lustre` and `flow` give beside the model's run, and beside a second reading of
the file that is written. A trace is a list of rows of whole numbers."""

import lustre_flows
import lustre_text
from model_values import whole

SAMPLE_LIMIT = 64
# How often the file is read a second time.
READ_AGAIN = 0.1


def long_delay(model):
    """The line of the first Delay that is too long for a file of Lustre, or None."""
    lengths = ((row.line, whole(row.text("DelayLength"))) for row in model.rows if row.is_kind(b"Delay"))
    return next((line for line, length in lengths if length > SAMPLE_LIMIT), None)


def compare_flows(chance, model, program, trace, lines):
    """What differs between the run of a model over a trace, with these lines of outputs, and the flows of its file, or None."""
    source, _, rows = program.files("".join(" ".join(map(str, it)) + "\n" for it in trace))
    file, line = f"{program.folder}/lustre", long_delay(model)
    if line is not None:
        return program.differs(["lustre", source, file], 11, f"lustre refused line {line} LongDelay\n")
    wrong = program.differs(["lustre", source, file], 0, f"lustre nodes {9 + len(model.systems)}\n")
    wrong = wrong or program.differs(["flow", file, rows], 0, f"{lines}ticks {len(trace)}\n")
    if wrong or chance.random() >= READ_AGAIN:
        return wrong
    given, stuck = lustre_flows.run(lustre_text.read(program.read("lustre")), trace)
    text = "".join(" ".join(map(str, map(int, it))) + "\n" for it in given)
    return None if (text, stuck) == (lines, None) else ("second reading of the flows", lines, text, stuck)
