"""The recorded sessions of tests/cases, section by section, for the scripts that count and show them."""
import pathlib
import re

TOP = pathlib.Path(__file__).resolve().parent.parent
CASES = TOP / "tests/cases"
RULES = TOP / "crates/gft_rules/src/rule.rt"


class Session:
    """A session: its group, its name, and its sections in order, each the words of its head and its lines."""

    def __init__(self, group, name):
        self.group, self.name, self.sections = group, name, []

    def lines(self, head):
        """The lines of the first section with this head; none where there is no such section."""
        return next((lines for words, lines in self.sections if words[0] == head), [])


def sessions(path):
    """The sessions of one group."""
    found = []
    for line in path.read_text(encoding="utf-8").split("\n")[:-1]:
        if line.startswith("=== "):
            found.append(Session(path.stem, line[4:]))
        elif line.startswith("--- "):
            found[-1].sections.append((line[4:].split(), []))
        elif found and found[-1].sections:
            found[-1].sections[-1][1].append(line[1:] if line.startswith("\\") else line)
    return found


def all_sessions():
    """The sessions of all groups, group by group."""
    return [session for path in sorted(CASES.glob("*.txt")) for session in sessions(path)]


def rules():
    """Each rule of the program with its code, in the order of the codes."""
    return [(int(code), rule) for rule, code in re.findall(r"^    ([A-Z]\w+) = (\d+),", RULES.read_text(), re.M)]


def refused(session):
    """The rules that the session's output names, in order."""
    found = (re.match(r"refused ([A-Z]\w+)(?=$|:| at )", line) for line in session.lines("output"))
    return [match.group(1) for match in found if match]
