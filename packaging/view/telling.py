"""What is said of a run in words: what ran, what failed, what was undone; and what each atom is."""
from books import tasks_in

LONG = 2000


def short(text, most=LONG):
    return text if len(text) <= most else f"{text[:most]} … ({len(text)} characters; `taskflow show` says all)"


SORTS = ("not undone", "failed", "failed at first", "unfinished", "undone", "done", "skipped", "not begun")


def sorts_of(detail, story):
    """The tasks by what they came to, each sort with its word for a reader, the worst first."""
    found = {word: [] for word in SORTS}
    for task in tasks_in(detail.plan.root):
        fate = story.fates[task.number]
        if fate.failures:
            found["failed at first" if fate.state == "SUCCESS" else "failed"].append(task)
        sort = {
            "REVERT_FAILURE": "not undone",
            "RUNNING": "unfinished",
            "REVERTING": "unfinished",
            "REVERTED": "undone",
            "SUCCESS": "done",
            "IGNORE": "skipped",
            "PENDING": "not begun",
        }.get(fate.state)
        if sort:
            found[sort].append(task)
    return found


def summary(detail, story):
    """A sentence or two on the run."""
    sorts = sorts_of(detail, story)
    total = sum(1 for _ in tasks_in(detail.plan.root))
    stand = [f"{len(sorts[word])} {word}" for word in ("done", "undone", "not undone", "skipped", "unfinished", "not begun") if sorts[word]]
    parts = [f"{count(total, 'task')}: {', '.join(stand) or 'in no state'}."]
    failed, mended = sorts["failed"], sorts["failed at first"]
    if len(failed) == 1:
        parts.append(f"{failed[0].name} failed: {short(story.fates[failed[0].number].failure or 'it was begun anew', 200)}.")
    elif failed:
        parts.append(f"{listed(failed)} failed.")
    if mended:
        parts.append(f"{listed(mended)} failed at first and went well when tried again.")
    return " ".join([*parts, ending(detail, sorts)])


def listed(atoms):
    return joined([it.name for it in atoms[:4]] + ([f"{len(atoms) - 4} more"] if len(atoms) > 4 else []))


def ending(detail, sorts):
    state = detail.state
    if state == "SUCCESS":
        return "The flow ended in SUCCESS."
    if state == "REVERTED":
        return "The flow was undone and ended REVERTED."
    if state == "FAILURE":
        return f"The flow ended in FAILURE: {listed(sorts['not undone']) or 'something'} couldn't be undone."
    if state == "PENDING":
        return "The flow hasn't begun."
    if state == "SUSPENDED":
        return "The flow is SUSPENDED: `taskflow resume` goes on with it."
    return f"The flow is {state}: it is at work, or it was cut off and `taskflow resume` goes on with it."


def count(number, word):
    return f"{number} {word}" if number == 1 else f"{number} {word}s"


def joined(words):
    return words[0] if len(words) == 1 else f"{', '.join(words[:-1])} and {words[-1]}" if words else ""


def sources(plan, atom):
    """Each argument with who gives its value."""
    for argument, symbol in atom.arguments:
        name = argument if argument == symbol else f"{argument} = {symbol}"
        if symbol in atom.injects:
            yield name, short(atom.injects[symbol], 300)
        elif symbol in plan.store:
            yield name, f"{short(plan.store[symbol], 300)} (store)"
        else:
            givers = [it for it in plan.givers.get(symbol, ()) if it != atom.name]
            yield name, f"from {' or '.join(givers[:4]) or 'nobody'}{' and others' if len(givers) > 4 else ''}"


def facts_of(plan, atom):
    """Pairs of a label and a text, which tell what an atom is."""
    yield "kind", atom.kind if atom.word == "task" else f"{atom.kind} {short(atom.tries, 300)}".strip()
    if atom.word == "task":
        if atom.words:
            yield "runs", short(" ".join(atom.words), 300)
        if atom.undo != "ok":
            yield "undo", "fails" if atom.undo == "fail" else short(" ".join(atom.undo), 300)
        if atom.priority:
            yield "priority", str(atom.priority)
    elif atom.reverts_all:
        yield "gives up by", "REVERT_ALL"
    for name, text in sources(plan, atom):
        yield "takes", f"{name}: {text}"
    if atom.provides:
        yield "gives", ", ".join(atom.provides)
