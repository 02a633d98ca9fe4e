"""What happened in a run, read off its entries: what each atom came to, which turns of work each hand took, and what failed."""
import dataclasses

MOST_ENTRIES = 8_000
ENDS = ("SUCCESS", "FAILURE", "REVERTED", "REVERT_FAILURE")


@dataclasses.dataclass
class Turn:
    """A piece of work on an atom by a hand: from the entry that begins it to the one that ends it."""

    hand: int
    atom: int
    first: int
    last: int
    undoes: bool
    end: str
    carried: str = ""


@dataclasses.dataclass
class Fate:
    """What an atom came to over a history. Its failure stays known until it begins anew."""

    state: str = "PENDING"
    carried: str = ""
    executions: int = 0
    failure: str = ""
    failures: int = 0
    entries: list = dataclasses.field(default_factory=list)


@dataclasses.dataclass
class Story:
    """What a page tells of a history: of a very long one only the entries since some are drawn, and what stood before them."""

    fates: list
    turns: list
    failures: list
    hands: int
    since: int
    base: list


def story_of(detail):
    fates = [Fate() for _ in detail.plan.atoms]
    turns, open_turns, failures = [], {}, []
    since, base = max(0, len(detail.entries) - MOST_ENTRIES), []
    for entry in detail.entries:
        if entry.number == since + 1 and since:
            base = [[it.state, it.carried, it.failure, it.executions] for it in fates]
        if entry.kind == "atom":
            live(fates[entry.about], entry)
            follow(entry, turns, open_turns)
            if entry.state in ("FAILURE", "REVERT_FAILURE"):
                failures.append(entry)
        elif entry.kind == "restart":
            fates[entry.about].entries.append(entry.number)
            undoes = fates[entry.about].state == "REVERTING"
            begin(entry, turns, open_turns, undoes)
        elif entry.kind == "flow" and entry.state in ("RESUMING", "SUSPENDED"):
            cut(entry.number, open_turns)
    for turn in open_turns.values():
        turn.last = len(detail.entries)
    hands = 1 + max((entry.hand for entry in detail.entries), default=0)
    return Story(fates, [it for it in turns if it.last > since], failures, hands, since, base)


def live(fate, entry):
    fate.state = entry.state
    fate.entries.append(entry.number)
    fate.carried = entry.carried
    if entry.state in ("PENDING", "RUNNING"):
        fate.failure = ""
    if entry.state == "RUNNING":
        fate.executions += 1
    elif entry.state == "FAILURE":
        fate.failure = entry.carried
        fate.failures += 1


def begin(entry, turns, open_turns, undoes):
    turns.append(Turn(entry.hand, entry.about, entry.number, entry.number, undoes, "unfinished"))
    open_turns[entry.about] = turns[-1]


def follow(entry, turns, open_turns):
    if entry.state in ("RUNNING", "REVERTING"):
        begin(entry, turns, open_turns, entry.state == "REVERTING")
    elif entry.about in open_turns and entry.state in ENDS:
        turn = open_turns.pop(entry.about)
        turn.last, turn.end, turn.carried = entry.number, entry.state, entry.carried


def cut(number, open_turns):
    """A run that was cut off left what it had in hand: nobody recorded how it ended."""
    for turn in open_turns.values():
        turn.last, turn.end = number - 1, "cut off"
    open_turns.clear()
