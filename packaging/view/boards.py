"""Reads the jobs of a board, and makes the page that shows them by their states."""
import dataclasses
import uuid
from html import escape

import forms
from page import whole
from telling import count, short

COLUMNS = ["UNCLAIMED", "CLAIMED", "CONSUMED", "TRASHED"]
AFTER = {"claim": "CLAIMED", "abandon": "UNCLAIMED", "consume": "CONSUMED", "trash": "TRASHED"}


@dataclasses.dataclass
class Job:
    number: int
    name: str
    priority: str
    details: str
    state: str = "UNCLAIMED"
    owner: str = "-"
    past: list = dataclasses.field(default_factory=list)

    @property
    def id(self):
        return str(uuid.uuid5(uuid.NAMESPACE_DNS, f"{self.number}/{self.name}"))


def jobs_of(bodies):
    found = []
    for place, body in bodies:
        try:
            follow(found, forms.command(body))
        except (forms.NoForm, IndexError) as wrong:
            raise forms.NoForm(place, body[0]) from wrong
    return found


def follow(jobs, command):
    done, one, two, three = command
    if done == "post":
        jobs.append(Job(len(jobs) + 1, one, two, three))
        return
    if one == 0:
        raise forms.NoForm
    job = jobs[one - 1]
    job.state = AFTER[done]
    job.owner = "-" if done == "abandon" else two
    job.past.append(f"{done} by {two}")


def board_page(file, jobs):
    jobs = sorted(jobs, key=lambda it: (forms.PRIORITIES.index(it.priority), it.number))
    columns = {state: [it for it in jobs if it.state == state] for state in COLUMNS}
    said = ", ".join(f"{len(found)} {state}" for state, found in columns.items() if found) or "no job"
    body = (
        f'<header class="top"><h1>Board</h1><p>{count(len(jobs), "job")}: {said}.</p><p class="quiet">{escape(str(file))}</p></header>'
        f'<div class="board">{"".join(column(state, found) for state, found in columns.items())}</div>'
    )
    return whole(f"Board {file}", body, {})


def column(state, jobs):
    return f'<section data-state="{state}"><h2>{state} {len(jobs)}</h2>{"".join(map(card, jobs))}</section>'


def card(job):
    urgent = ' class="urgent"' if job.priority in ("VERY_HIGH", "HIGH") else ""
    owner = f" · {escape(job.owner)}" if job.owner != "-" else ""
    details = f"<code>{escape(short(job.details, 300))}</code>" if job.details != "null" else ""
    past = f"<small>{escape(short(', '.join(job.past[-6:]), 300))}</small>" if job.past else ""
    return (
        f'<div class="job" data-state="{job.state}"><b>{escape(job.name)}</b> <small>{job.number}{owner}</small> '
        f"<small{urgent}>{job.priority}</small>{details}{past}<code>{job.id}</code></div>"
    )
