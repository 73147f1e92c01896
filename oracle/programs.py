"""Calls of the oracle's programs beside this file, with many plans in one process."""

import io
import subprocess
import sys
from pathlib import Path

import frames

HERE = Path(__file__).resolve().parent
BATCH = 1000  # plans in one call of the runner, which bounds the memory for their texts


def call(arguments, contents=b""):
    """The frames that a program writes; ends with its exit status where that isn't 0."""
    run = subprocess.run([HERE / arguments[0], *map(str, arguments[1:])], input=contents,
                         stdout=subprocess.PIPE, check=False)
    if run.returncode:
        sys.exit(run.returncode)
    return list(frames.read(io.BytesIO(run.stdout)))


def generate(kind, seed, count):
    """Seeded plans; for `pairs` the off and the on plan of each pair in turn."""
    return call(["generate", kind, seed, count, "-"])


def run(form, plans, buffer=65536):
    """What `oracle/run FORM BUFFER` prints for each plan; `check` and `schedule` have no buffer."""
    arguments = ["run", "many", form] + ([] if form in ("check", "schedule") else [buffer])
    answers = []
    for start in range(0, len(plans), BATCH):
        answers += call(arguments, frames.join(plans[start:start + BATCH]))
    if len(answers) != len(plans):
        raise ValueError(f"{len(plans)} plans, {len(answers)} answers")
    return answers
