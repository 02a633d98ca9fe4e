"""Pages for .ci/view: pages of books that are made and loaded, and what they show beside what the program says."""
import pathlib
import subprocess
import sys

ROOT = pathlib.Path(__file__).resolve().parent.parent
VIEW = ROOT / "packaging" / "view" / "taskflow-view"
sys.path.insert(0, str(VIEW.parent))
from histories import MOST_ENTRIES  # noqa: E402

misses = []


def miss(text):
    misses.append(text)
    print(f"view: {text}", flush=True)


class Trial:
    """A folder of books, the program, and a browser."""

    def __init__(self, taskflow, folder, browser):
        self.taskflow, self.folder, self.page = taskflow, folder, browser.page()
        self.pages = 0

    def say(self, *words, **more):
        done = subprocess.run([self.taskflow, *map(str, words)], cwd=self.folder, stdin=subprocess.DEVNULL, capture_output=True, check=False, **more)
        return done.stdout.decode()

    def show(self, file, *name):
        """Makes the page of a file that can't be written, and loads it."""
        (self.folder / file).chmod(0o444)
        held = (self.folder / file).read_bytes()
        page = self.folder / "page.html"
        done = subprocess.run([VIEW, file, *name, "-o", page], cwd=self.folder, capture_output=True, check=False)
        if done.returncode != 0 or (self.folder / file).read_bytes() != held:
            miss(f"{file}: the page isn't made, or the file changes: {done.stderr.decode()[-300:]}")
        (self.folder / file).chmod(0o644)
        self.page.load(page)
        self.pages += 1
        addresses, complaints = self.page.asked_for()
        if [it for it in addresses if it != f"file://{page}" and it != "data:,"] or complaints:
            miss(f"{file}: the page asks for {addresses}, and says {complaints}")

    def read(self, code):
        return self.page.run(code)


def lines_of(text):
    """The lines that end in a line feed: a text may have other breaks."""
    return text.split("\n")[:-1]


def rows_of(text, first):
    return [line for line in lines_of(text) if line.startswith(first)]


ATOMS = """[...document.querySelectorAll('.picture .atom')].map((it) =>
    [it.querySelector('b').textContent, it.dataset.state, it.querySelector('i').textContent, it.querySelector('code').textContent,
     it.hasAttribute('data-failed')])"""
OPEN_ALL = """for (const it of document.querySelectorAll('details')) it.open = true;
    new Promise((done) => setTimeout(done, 30))"""
CELLS = """[...document.querySelectorAll('SELECTOR tr')].slice(1).map((row) => [...row.cells].map((it) => it.textContent))"""


def check_flow(trial, file, name):
    """The page beside what `show` and `details` say."""
    trial.show(file, name)
    said = trial.say("show", file, name)
    lines = [line for line in lines_of(said) if line[:1].isdigit()]
    atoms = {name: (state, carried) for name, state, shown, carried, failing in trial.read(ATOMS) if state == shown}
    table = [line.split(" ", 3)[1:] for line in rows_of(said, "atom ")]
    if sorted(atoms) != sorted(row[0] for row in table):
        miss(f"{file} {name}: the picture has {sorted(atoms)}")
        return
    for atom, state, *carried in table:
        shown = atoms[atom]
        if shown[0] != state or carried and len(carried[0]) < 80 and shown[1] != carried[0]:
            miss(f"{file} {name}: {atom} is {shown}, and not {state} {carried}")
    trial.read(OPEN_ALL)
    entries = [" ".join(filter(None, row)) for row in trial.read(CELLS.replace("SELECTOR", "#entries"))]
    since = max(0, len(lines) - MOST_ENTRIES)
    if entries != lines[since:]:
        miss(f"{file} {name}: the entries are {entries[:3]} .., and not {lines[since:][:3]} ..")
    flows = [" ".join(row[:3]) for row in trial.read(CELLS.replace("SELECTOR", ".flows"))]
    if flows != trial.say("details", file).splitlines():
        miss(f"{file} {name}: the flows are {flows}")
    failures = [row[0] for row in trial.read(CELLS.replace("SELECTOR", ".failures"))]
    if failures != [line.split()[0] for line in lines if line.split()[4:5] and line.split()[4] in ("FAILURE", "REVERT_FAILURE") and line.split()[2] != "flow"]:
        miss(f"{file} {name}: the failures are {failures}")
    check_middle(trial, file, name, lines, since, [row[0] for row in table])
    check_bars(trial, file, name, lines[since:])


def check_middle(trial, file, name, lines, since, atoms):
    """The picture as it is moved through the history, beside what the lines up to there leave."""
    drawn = len(lines) - since
    for count in {since, since + 1, since + drawn // 3, since + drawn // 2, len(lines) - 1}:
        states = dict.fromkeys(atoms, "PENDING")
        for line in lines[:count]:
            words = line.split()
            if words[2] in ("task", "retry"):
                states[words[3]] = words[4]
        trial.read(f"at.value = {count}; at.dispatchEvent(new Event('input'))")
        shown = {row[0]: row[1] for row in trial.read(ATOMS)}
        if shown != states:
            miss(f"{file} {name}: after {count} entries the picture has {shown}, and not {states}")


def check_bars(trial, file, name, lines):
    """Each end of work that the lines tell has its bar, of its sort, in its hand's row."""
    sorts = {"SUCCESS": "done", "FAILURE": "failed", "REVERTED": "undone", "REVERT_FAILURE": "stuck"}
    wanted = []
    for line in lines:
        number, hand, word, _, *rest = line.split()
        if word in ("task", "retry") and rest and rest[0] in sorts:
            wanted.append([int(number), int(hand), sorts[rest[0]]])
    bars = trial.read(
        """[...document.querySelectorAll('.turn:not(.cut)')].map((it) => [Number(it.dataset.entry),
            Math.round((Number(it.querySelector('rect').getAttribute('y')) - 30) / 30) - 1, it.classList[1]])"""
    )
    if sorted(bars) != sorted(wanted):
        miss(f"{file} {name}: the bars are {sorted(bars)[:6]} .., and not {sorted(wanted)[:6]} ..")
