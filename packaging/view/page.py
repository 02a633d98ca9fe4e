"""Makes the page of a flow: what came of it, its picture, its time line, its entries, its tasks, and the flows of its book."""
import base64
import hashlib
import json
import pathlib
from html import escape

from histories import story_of
from picture import picture
from telling import count, facts_of, short, sorts_of, summary
from timeline import timeline

HERE = pathlib.Path(__file__).resolve().parent
LEGEND = [
    ("SUCCESS", "done"),
    ("FAILURE", "failed"),
    ("REVERTED", "undone"),
    ("REVERT_FAILURE", "couldn't be undone"),
    ("RUNNING", "at work"),
    ("REVERTING", "being undone"),
    ("IGNORE", "skipped"),
    ("PENDING", "not begun"),
]


def whole(title, body, data):
    """A page that asks nobody for anything: its style and its script stand in it, and no other script may run."""
    style, script = (HERE / "page.css").read_text(), (HERE / "page.js").read_text()
    known = base64.b64encode(hashlib.sha256(script.encode()).digest()).decode()
    policy = f"default-src 'none'; img-src data:; style-src 'unsafe-inline'; script-src 'sha256-{known}'"
    packed = json.dumps(data, ensure_ascii=False, separators=(",", ":")).replace("<", "\\u003c")
    return (
        '<!DOCTYPE html>\n<html lang="en"><head><meta charset="utf-8">'
        f'<meta http-equiv="Content-Security-Policy" content="{policy}">'
        '<meta name="viewport" content="width=device-width"><link rel="icon" href="data:,">'
        f"<title>{escape(title)}</title><style>{style}</style></head>\n<body>{body}\n"
        f'<script type="application/json" id="data">{packed}</script>\n<script>{script}</script></body></html>\n'
    )


def flow_page(book, details, detail):
    story = story_of(detail)
    body = "\n".join(
        [
            head(book, detail, story),
            replay(detail, story),
            f'<div class="scroll">{picture(detail, story)}</div>',
            f"<h2>History <small>{history_note(story)}</small></h2>",
            f'<div class="scroll">{timeline(detail, story)}</div>',
            failures(story),
            tables(detail, story),
            flows(details, detail),
            '<div id="tip" hidden></div>',
        ]
    )
    return whole(f"{detail.name} {detail.state}", body, data_of(detail, story))


def head(book, detail, story):
    sorts = sorts_of(detail, story)
    chips = "".join(
        f'<span class="chip" data-sort="{word}"><b>{len(tasks)}</b> {word}</span>' for word, tasks in sorts.items() if tasks
    )
    return (
        f'<header class="top"><h1>{escape(detail.name)} <span class="state" data-state="{detail.state}">{detail.state}</span></h1>'
        f"<p>{escape(summary(detail, story))}</p><div>{chips}</div>"
        f"<p class=\"quiet\">{escape(str(book))} · {count(len(detail.entries), 'entry').replace('entrys', 'entries')} · {count(story.hands, 'hand')}</p></header>"
    )


def history_note(story):
    cut = f"; the first {story.since} entries aren't drawn" if story.since else ""
    return f"a column for each entry, a row for each hand; the book keeps their order and no times{cut}"


def replay(detail, story):
    last = len(detail.entries)
    present = {fate.state for fate in story.fates} | {it.state for it in detail.entries if it.kind == "atom"}
    legend = "".join(f'<span data-state="{state}">{state} <small>{word}</small></span>' for state, word in LEGEND if state in present)
    return (
        f'<div class="replay"><button id="play" type="button" title="Plays the history">▶</button>'
        f'<input id="at" type="range" min="{story.since}" max="{last}" value="{last}" aria-label="Entry">'
        f'<output id="said">after all {last} entries</output><div class="legend">{legend}</div></div>'
    )


def failures(story):
    if not story.failures:
        return ""
    rows = "".join(
        f'<tr data-entry="{it.number}"><td>{it.number}</td><td>{it.hand}</td><td><b>{escape(it.name)}</b></td>'
        f'<td><span class="word" data-state="{it.state}">{it.state}</span></td><td><code>{escape(short(it.carried))}</code></td></tr>'
        for it in story.failures
    )
    return f'<h2>What failed</h2><div class="high"><table class="list failures"><tr><th>Entry<th>Hand<th>Of<th>State<th>Failure</tr>{rows}</table></div>'


def tables(detail, story):
    """Tables that the script fills as they are opened: a page of 1,000 tasks is drawn without them."""
    return (
        f'<details id="entries"><summary>{"The last" if story.since else "All"} {len(detail.entries) - story.since} entries</summary><div class="high"></div></details>'
        f'<details id="atoms"><summary>All {len(detail.plan.atoms)} tasks and retry controllers</summary><div class="high"></div></details>'
    )


def flows(details, shown):
    rows = "".join(
        f'<tr{" class=shown" if it is shown else ""}><td>{number}</td><td><b>{escape(it.name)}</b></td>'
        f'<td><span class="word" data-state="{it.state}">{it.state}</span></td><td>{len(it.plan.atoms)}</td><td>{len(it.entries)}</td></tr>'
        for number, it in enumerate(details)
    )
    return f'<h2>Flows of the book</h2><table class="list flows"><tr><th>Number<th>Name<th>State<th>Atoms<th>Entries</tr>{rows}</table>'


def data_of(detail, story):
    """What the script reads: of each atom what it is, and of each entry what it says."""
    atoms = [
        {"name": it.name, "word": it.word, "facts": list(facts_of(detail.plan, it)), "entries": story.fates[it.number].entries[-8:]}
        for it in detail.plan.atoms
    ]
    told = [[it.hand, it.kind, it.about, it.state, short(it.carried), it.name] for it in detail.entries[story.since :]]
    return {"atoms": atoms, "entries": told, "since": story.since, "base": story.base}
