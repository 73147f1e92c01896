"""The recorded answers under vectors/: their layout, shared by `record` and `replay`.

Every file is a sequence of frames, `iterator.txt` aside. A record is six of them:
plan, the whole answer and the terms answer as `number length count` lines, then
the whole text in three parts: what stands before the fixed iterator text, what
stands between it and the terms, and the terms. The fixed text is 2.7 KB in every
whole text, so it is kept once, in `iterator.txt`. A refused text's parts are empty.

    valid.frames      records
    pairs.frames      records in turn: splitting off, splitting on
    damaged.frames    in turn: a plan, and `accepted` or `refused N` as a line
"""

from collections import namedtuple
from pathlib import Path

import frames

FOLDER = Path(__file__).resolve().parent.parent / "vectors"

Answer = namedtuple("Answer", "number length count")
Record = namedtuple("Record", "plan whole terms before between terms_text")


def answer_of_line(line):
    return Answer(*map(int, line.split()))


def line_of_answer(answer):
    return b"%d %d %d\n" % answer


def frames_of_record(record):
    answers = [line_of_answer(record.whole), line_of_answer(record.terms)]
    return [record.plan, *answers, record.before, record.between, record.terms_text]


def record_of_frames(plan, whole, terms, *texts):
    return Record(plan, answer_of_line(whole), answer_of_line(terms), *texts)


def whole_text(record, iterator_text):
    """The whole text of a record whose whole answer is one."""
    return record.before + iterator_text + record.between + record.terms_text


def save(name, contents):
    FOLDER.mkdir(exist_ok=True)
    (FOLDER / name).write_bytes(frames.join(contents))


def load(name, size):
    """The frames of a file in groups of `size`."""
    with open(FOLDER / name, "rb") as file:
        contents = list(frames.read(file))
    if len(contents) % size:
        raise ValueError(f"vectors/{name} has {len(contents)} frames, no multiple of {size}")
    return [contents[start:start + size] for start in range(0, len(contents), size)]


def load_records(name):
    return [record_of_frames(*group) for group in load(name, len(Record._fields))]
