"use strict";
// Everything that comes from a book is put in as text, never as markup.
// Of a very long history `entries` are those since some, and `base` has where each atom stood before them.
const { atoms = [], entries = [], since = 0, base = [] } = JSON.parse(document.getElementById("data").textContent);
const boxes = new Map([...document.querySelectorAll(".picture [data-atom]")].map((it) => [Number(it.dataset.atom), it]));
const at = document.getElementById("at");
const tip = document.getElementById("tip");
const last = since + entries.length;
const lineOf = ([hand, kind, about, state, carried, name]) =>
  [kind === "atom" ? atoms[about].word : kind, name, state, carried].filter(Boolean).join(" ");

function statesAfter(count) {
  const states = atoms.map((_, number) => {
    const [state, carried, failed, runs] = base[number] ?? ["PENDING", "", "", 0];
    return { state, carried, failed, runs };
  });
  for (const [, kind, about, state, carried] of entries.slice(0, count - since)) {
    if (kind !== "atom") continue;
    const now = states[about];
    now.state = state;
    now.carried = carried;
    if (state === "PENDING" || state === "RUNNING") now.failed = "";
    if (state === "FAILURE") now.failed = carried;
    if (state === "RUNNING") now.runs += 1;
  }
  return states;
}

function showAfter(count) {
  statesAfter(count).forEach((now, number) => {
    const box = boxes.get(number);
    box.dataset.state = now.state;
    box.toggleAttribute("data-failed", now.failed !== "");
    box.querySelector("i").textContent = now.state;
    box.querySelector("code").textContent = now.carried || now.failed;
    box.querySelector("u").textContent = now.runs > 1 ? `×${now.runs}` : "";
  });
  const all = count === last;
  document.getElementById("said").textContent = all
    ? `after all ${count} entries`
    : count > since ? `after entry ${count}: ${lineOf(entries[count - since - 1])}` : `before entry ${count + 1}`;
  moveCursor(count, all);
  for (const row of document.querySelectorAll("tr.now")) row.classList.remove("now");
  if (!all) for (const row of document.querySelectorAll(`tr[data-entry="${count}"]`)) row.classList.add("now");
}

function moveCursor(count, hide) {
  const line = document.getElementById("cursor");
  const { left, unit } = document.querySelector(".timeline").dataset;
  const x = Number(left) + Number(unit) * (count - since);
  line.toggleAttribute("hidden", hide);
  line.setAttribute("x1", x);
  line.setAttribute("x2", x);
}

function add(parent, tag, text, state) {
  const made = parent.appendChild(document.createElement(tag));
  made.textContent = text;
  if (state) made.dataset.state = state;
  return made;
}

function tellAtom(number) {
  const { name, word, facts, entries: own } = atoms[number];
  tip.replaceChildren();
  add(tip, "b", name);
  for (const [label, text] of facts) {
    const row = add(tip, "div", "");
    add(row, "span", `${label === "kind" ? word : label} `);
    row.append(text);
  }
  for (const entry of own.filter((it) => it > since)) {
    const [hand, kind, , state, carried] = entries[entry - since - 1];
    const row = add(tip, "div", "");
    add(row, "span", `${entry} hand ${hand} `);
    add(row, "strong", kind === "restart" ? "restarted" : state, state);
    row.append(` ${carried}`);
  }
}

function showTip(event, number) {
  tellAtom(number);
  tip.hidden = false;
  const spot = event.target.closest("[data-atom]").getBoundingClientRect();
  const below = spot.bottom + 8 + tip.offsetHeight < innerHeight;
  tip.style.left = `${Math.max(6, Math.min(spot.left, innerWidth - tip.offsetWidth - 10))}px`;
  tip.style.top = `${below ? spot.bottom + 8 : Math.max(6, spot.top - tip.offsetHeight - 8)}px`;
}

function light(number) {
  for (const it of document.querySelectorAll(".lit")) it.classList.remove("lit");
  if (number === undefined) return;
  const own = [".atom", ".turn"].map((it) => `${it}[data-atom="${number}"]`);
  const links = ["from", "to"].map((it) => `path[data-${it}="${number}"]`);
  for (const it of document.querySelectorAll([...own, ...links].join(", "))) it.classList.add("lit");
}

function look(event) {
  const over = event.target.closest?.("[data-atom]");
  if (!over) { tip.hidden = true; light(); return; }
  light(over.dataset.atom);
  showTip(event, Number(over.dataset.atom));
}

function addRow(table, cells) {
  const row = table.insertRow();
  for (const cell of cells) {
    if (Array.isArray(cell)) add(row.insertCell(), cell[0], cell[1], cell[2]).className = cell[0] === "span" ? "word" : "";
    else row.insertCell().textContent = cell;
  }
  return row;
}

function fillEntries(table) {
  addRow(table, ["Entry", "Hand", "What", "Name", "State", "Value"]);
  entries.forEach(([hand, kind, about, state, carried, name], place) => {
    const what = kind === "atom" ? atoms[about].word : kind;
    const number = since + place + 1;
    addRow(table, [number, hand, what, name, ["span", state, state], ["code", carried]]).dataset.entry = number;
  });
}

function fillAtoms(table) {
  addRow(table, ["Name", "State", "Value", "Runs", "What it is"]);
  const stand = statesAfter(last);
  atoms.forEach(({ name, facts }, number) => {
    const { state, carried, runs } = stand[number];
    const said = facts.map((fact) => fact.join(" ")).join("; ");
    addRow(table, [["b", name], ["span", state, state], ["code", carried], runs, said]).dataset.atom = number;
  });
}

function fillOnce(details, fill) {
  details.addEventListener("toggle", () => {
    if (!details.open || details.querySelector("table")) return;
    const table = add(details.querySelector(".high"), "table", "");
    table.className = "list";
    fill(table);
    table.rows[0].className = "head";
  });
}

function play(button) {
  if (play.timer) { clearInterval(play.timer); play.timer = 0; button.textContent = "▶"; return; }
  if (Number(at.value) === last) at.value = since;
  button.textContent = "❚❚";
  play.timer = setInterval(() => {
    at.value = Number(at.value) + Math.ceil(entries.length / 200);
    showAfter(Number(at.value));
    if (Number(at.value) === last) play(button);
  }, Math.max(40, Math.min(400, 12000 / entries.length)));
}

if (at) {
  fillOnce(document.getElementById("entries"), fillEntries);
  fillOnce(document.getElementById("atoms"), fillAtoms);
  at.addEventListener("input", () => showAfter(Number(at.value)));
  document.getElementById("play").addEventListener("click", (event) => play(event.currentTarget));
  document.addEventListener("mouseover", look);
  document.addEventListener("focusin", look);
  document.addEventListener("click", (event) => {
    const entry = event.target.closest("[data-entry]");
    if (!entry) return;
    at.value = entry.dataset.entry;
    showAfter(Number(at.value));
  });
}
