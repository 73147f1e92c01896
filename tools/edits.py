"""The wrong answers of the must-fail edits, and what the checker says of each."""

import pathlib
import re

ROOT = pathlib.Path(__file__).resolve().parent.parent
LOGS = ROOT / "target/must-fail"
# What the last `rt ci` of ./test said.
CI = ROOT / "target/rt-ci.txt"
# What shows nothing: a proof file that names a goal or a step that the edited code no longer has, and what waits for a part that is refused.
SHOWS_NOTHING = re.compile(r"that can be named from here|has no field|is not in scope|which was (?:rejected|not admitted)|cannot be checked")


class WrongAnswer:
    """Where it must be refused, the functions that it is told to guard, and its replacements: lines `file:`, `old:` and `new:`."""

    def __init__(self, place):
        self.place, self.guarded, self.lines = place, [], []

    def function(self):
        return self.place.partition(" at ")[0]


def wrong_answers(edit):
    """Those of an edit; none if a replacement stands before the first `fails:` line."""
    found = []
    for line in edit.read_text().splitlines():
        if line.startswith("fails: "):
            found.append(WrongAnswer(line.removeprefix("fails: ")))
        elif line.startswith(("file: ", "old: ", "new:", "of: ")) and not found:
            return []
        elif line.startswith("of: "):
            found[-1].guarded.append(line.removeprefix("of: "))
        elif line.startswith(("file: ", "old: ", "new:")):
            found[-1].lines.append(line)
    return found


def apply(lines, where):
    """Makes the replacements in a copy of the crate; each old text must stand in its file once. Says what is wrong."""
    file = old = None
    for line in lines:
        if line.startswith("file: "):
            file = where / line.removeprefix("file: ")
        elif line.startswith("old: "):
            old = line.removeprefix("old: ")
        elif line.startswith("new:"):
            text = file.read_text()
            if text.count(old) != 1:
                return f"stands {text.count(old)} times: {old}"
            file.write_text(text.replace(old, line.removeprefix("new:").removeprefix(" ")))
    return None


def log_of(edit, number=0):
    """What a check of an edit said: the first is of the whole edit, the next of those of its wrong answers that the ones before do not show."""
    return LOGS / edit.parent.parent.name / edit.stem / (f".log-{number}" if number else ".log")


def logs_of(edit):
    """The logs that there are, in the order in which they were written."""
    found = []
    while (log := log_of(edit, len(found))).is_file():
        found.append(log)
    return found


def proof_of(function):
    """The paths of a function's proof files inside its crate, as a pattern. A function that calls itself has a plus sign before its name;
    functions that call one another have a folder with a name of their own."""
    *modules, name = function.split("::")[1:]
    return "/".join(["proofs", *modules, rf"(?:{name}|\+{name}|\+\w+)", r"(?:Answers|Invariants|Proof)\.antt"])


def refused_facts(place, log):
    """What the check says of the facts of this place itself that it refused: of all, or of the one that is named."""
    place, _, fact = place.partition(" at ")
    said, file = [], re.escape(place)
    if "::" in place:
        # A goal that has no answer in a file, and that the checker does not find by itself.
        without = re.compile(rf"fn {file}: no proof: .*did not prove `([^`]+)`")
        said = [line for line in log if (found := without.match(line)) and fact in ("", found[1])]
        file = proof_of(place)
    at = re.compile(rf"(?:\S*/)?{file}:\d+:\d+: error: (.*)")
    said += [found[1] for line in log if (found := at.match(line)) and found[1].startswith(f"`{fact}`" if fact else "`")]
    return [text for text in said if not SHOWS_NOTHING.search(text)]


def shown(edit, answer):
    """The facts of the wrong answer's place that were refused, in the first check that shows any."""
    for log in logs_of(edit):
        if said := refused_facts(answer.place, log.read_text().splitlines()):
            return said
    return []
