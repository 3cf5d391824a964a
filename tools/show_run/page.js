"use strict";
// The page has one run, or two beside each other. A run's data are tables (commands, facts, effects, entries, whys) and what each line changed.
const ALL = JSON.parse(document.getElementById("data").textContent);
const ROW = 22, STEP = 26, COLUMN = 30;
const COLOURS = ["#fde725", "#90d743", "#35b779", "#1d7a80", "#31688e", "#443983"];
const DARK_TEXT = "#1b1f24", LIGHT_TEXT = "#ffffff";

const $ = (id) => document.getElementById(id);
const esc = (text) => String(text).replace(/[&<>"']/g, (it) => `&#${it.charCodeAt(0)};`);
const ticks = (text) => esc(text).replace(/`([^`]*)`/g, "<code>$1</code>");
const counted = (count, one, many) => `${count} ${count === 1 ? one : many || one + "s"}`;
const spliced = (list, [at, gone, come]) => [...list.slice(0, at), ...come, ...list.slice(at + gone)];

// A run: what each replica holds after each line. A line that changes nothing of a replica shares what stood before.
class Run {
  constructor(data) {
    Object.assign(this, data);
    this.states = [];
    let now = this.replicas.map(() => null);
    this.lines.forEach((line, at) => {
      if (line.k === "replica" && line.r !== undefined) {
        now = now.slice();
        now[line.r] = { at, commands: [], facts: [], entries: [], effects: null, cut: 0, before: null };
      }
      if (line.d) {
        const old = now[line.r], change = line.d;
        now = now.slice();
        now[line.r] = {
          at, before: old, cut: change.c, effects: change.effects || null,
          commands: [...old.commands, ...change.g], facts: spliced(old.facts, change.f), entries: spliced(old.entries, change.e),
        };
      }
      this.states.push(now);
    });
    const count = this.priorities.length;
    this.colours = new Map(this.priorities.map((it, at) => [it, count === 1 ? 2 : Math.floor((at * (COLOURS.length - 1)) / (count - 1) + 0.5)]));
  }
  // A text with ids shortened: an author's to its name.
  pretty(text) {
    return text.replace(/id:([0-9a-f]{64})/g, (_, hex) => (this.names[hex] ? "@" + this.names[hex] : `id:${hex.slice(0, 8)}..`));
  }
  fact(number) { return this.pretty(this.facts[number]); }
  effect(number) { return this.pretty(this.effects[number]); }
  entry(number) { const [command, outcome, effects, why] = this.entries[number]; return { command, outcome, effects, why: why === null ? null : this.whys[why] }; }
  called(number) {
    const it = this.commands[number];
    if (it.kind === "merge") return "merge";
    return `${it.name}(${(it.fields || []).map((field) => field[1]).join(", ")})`;
  }
  marks() { return this.lines.flatMap((line, at) => (line.x && line.x.length ? [at] : [])); }
  // The places of commands in the braid, by command.
  places(state) { return new Map(state ? state.entries.map((it, at) => [this.entries[it][0], at + 1]) : []); }
  // The facts of a state beside those before the line, each with whether it came or went. Both lists are in fact order.
  factRows(state, isNew) {
    const old = isNew && state.before ? state.before.facts : state.facts, kept = new Set(state.facts), rows = [];
    let at = 0;
    const had = new Set(old);
    for (const fact of state.facts) {
      if (had.has(fact)) {
        for (; old[at] !== fact; at++) if (!kept.has(old[at])) rows.push([old[at], "gone"]);
        at++;
        rows.push([fact, ""]);
      } else {
        // What was taken away here stands before what came in its place.
        for (; at < old.length && !kept.has(old[at]); at++) rows.push([old[at], "gone"]);
        rows.push([fact, "came"]);
      }
    }
    for (; at < old.length; at++) if (!kept.has(old[at])) rows.push([old[at], "gone"]);
    return rows;
  }
}

const colourOf = (run, command) => (command.kind === "basic" ? COLOURS[run.colours.get(command.priority)] : "var(--back)");
const textOf = (run, command) => (command.kind !== "basic" ? "var(--text)" : run.colours.get(command.priority) > 2 ? LIGHT_TEXT : DARK_TEXT);

// ---- lanes

class Lanes {
  constructor(run) {
    this.run = run;
    const room = innerWidth <= 820 ? 132 : 230;
    this.step = Math.max(26, Math.min(72, Math.floor(room / Math.max(1, run.replicas.length))));
    this.left = run.lines.some((it) => it.k === "inject") ? 18 : 4;
    this.width = this.left + this.step * run.replicas.length + 4;
    this.makers = new Map();
    run.lines.forEach((line, at) => { if (line.m) this.makers.set(line.m, { at, line }); });
  }
  x(replica) { return this.left + this.step * (replica + 0.5); }
  y(at) { return ROW * (at + 0.5); }
  arrow(x1, y1, x2, y2, kind, told) {
    const bow = x1 === x2 ? ` C ${x1 + 16} ${y1}, ${x2 + 16} ${y2}, ` : " L ";
    const ahead = x1 === x2 ? x2 + 4 : x2 - Math.sign(x2 - x1) * 5;
    return `<path class="${kind}" d="M ${x1} ${y1}${bow}${ahead} ${y2}" fill="none" stroke="currentColor" stroke-width="1.6" ${kind === "join" ? 'stroke-dasharray="3 3"' : ""} marker-end="url(#tip)"><title>${esc(told)}</title></path>`;
  }
  dot(x, y, shape) {
    if (shape === "refused") return `<path d="M ${x - 4} ${y - 4} L ${x + 4} ${y + 4} M ${x - 4} ${y + 4} L ${x + 4} ${y - 4}" stroke="var(--gone-text)" stroke-width="2"/>`;
    return `<circle cx="${x}" cy="${y}" r="${shape === "act" ? 4.5 : 3.2}" fill="${shape === "message" ? "var(--back)" : "currentColor"}" stroke="currentColor" stroke-width="1.5"/>`;
  }
  line(line, at) {
    const y = this.y(at), refused = line.p && / refused (?!\d)/.test(line.p[0]);
    if (line.k === "inject" && line.m) return this.dot(9, y, "message");
    if (line.r === undefined || line.late) return "";
    const x = this.x(line.r), signs = [];
    if (line.k === "sync" || line.k === "join") signs.push(refused ? this.dot(x, y, "refused") : this.arrow(line.o === line.r ? x : this.x(line.o), y - (line.o === line.r ? 6 : 0), x, y + (line.o === line.r ? 6 : 0), line.k, line.t));
    const from = line.u && this.makers.get(line.u);
    if (from && from.line.made && (line.k === "take" || line.k === "answer")) {
      const start = from.line.k === "inject" ? 9 : this.x(from.line.r);
      signs.push(this.arrow(start, this.y(from.at), x, y, line.k, `message ${line.u}`));
    }
    if (refused) signs.push(this.dot(x, y, "refused"));
    else if (line.m && line.made) signs.push(this.dot(x, y, "message"));
    else if (["init", "act", "replica", "restart"].includes(line.k)) signs.push(this.dot(x, y, line.k === "act" || line.k === "init" ? "act" : "small"));
    return `<g class="lane-${line.k}">${signs.join("")}</g>`;
  }
  svg() {
    const { run, width } = this, height = ROW * run.lines.length, parts = [];
    run.replicas.forEach((_, replica) => {
      const from = run.lines.findIndex((it) => it.k === "replica" && it.r === replica);
      parts.push(`<line x1="${this.x(replica)}" x2="${this.x(replica)}" y1="${this.y(from)}" y2="${height}" stroke="var(--edge)" stroke-width="1"/>`);
    });
    run.lines.forEach((line, at) => parts.push(this.line(line, at)));
    return `<svg class="lanes" aria-hidden="true" width="${width}" height="${height}" style="color:var(--text)"><defs><marker id="tip" viewBox="0 0 8 8" refX="6" refY="4" markerWidth="6" markerHeight="6" orient="auto"><path d="M0 0 L8 4 L0 8 Z" fill="currentColor"/></marker></defs>${parts.join("")}<rect class="veil" x="0" y="0" width="${width}" height="0" fill="var(--back)" opacity=".62"/></svg>`;
  }
}

// ---- the graph of a replica, a command a row, in the order of the braid

class GraphRows {
  constructor(run, state) {
    this.run = run;
    const places = run.places(state), keys = new Map();
    const later = (a, b) => a[0] - b[0] || a[1] - b[1] || a[2] - b[2];
    state.commands.forEach((number, stored) => {
      if (places.has(number)) return keys.set(number, [places.get(number), 0, stored]);
      const last = run.commands[number].parents.map((it) => keys.get(it)).sort(later).pop() || [0, 0, 0];
      keys.set(number, [last[0], last[1] + 1, stored]);
    });
    this.order = [...state.commands].sort((a, b) => later(keys.get(a), keys.get(b)));
    this.places = places;
    this.entries = new Map(state.entries.map((it) => [run.entries[it][0], run.entry(it)]));
    const authors = new Set(state.commands.map((it) => run.commands[it].column));
    this.columns = [...run.replicas.filter((it) => authors.has(it)), ...[...authors].filter((it) => !run.replicas.includes(it))];
    this.rowOf = new Map(this.order.map((it, at) => [it, at]));
    this.width = 10 + COLUMN * this.columns.length;
  }
  x(number) { return 5 + COLUMN * (this.columns.indexOf(this.run.commands[number].column) + 0.5); }
  y(number) { return STEP * (this.rowOf.get(number) + 0.5); }
  edge(parent, child) {
    const [x1, y1, x2, y2] = [this.x(parent), this.y(parent), this.x(child), this.y(child)];
    const straight = x1 === x2 && y2 - y1 <= STEP;
    const bow = x1 === x2 ? 15 : 0, middle = (y1 + y2) / 2;
    const curve = bow ? `C ${x1 + bow} ${y1 + STEP / 2}, ${x2 + bow} ${y2 - STEP / 2}, ${x2} ${y2}` : `C ${x1} ${middle}, ${x2} ${middle}, ${x2} ${y2}`;
    return `<path d="M ${x1} ${y1} ${straight ? `L ${x2} ${y2}` : curve}" fill="none" stroke="var(--edge)" stroke-width="1.5"/>`;
  }
  node(number) {
    const command = this.run.commands[number], x = this.x(number), y = this.y(number), outcome = (this.entries.get(number) || {}).outcome;
    if (command.kind === "merge") return `<path d="M ${x} ${y - 5} L ${x + 5} ${y} L ${x} ${y + 5} L ${x - 5} ${y} Z" fill="var(--back)" stroke="var(--edge)" stroke-width="1.5"/>`;
    if (command.kind === "finalize") return `<text x="${x}" y="${y + 4}" text-anchor="middle" font-size="11" font-weight="700" fill="var(--bar-text)">${this.places.get(number)}</text>`;
    const odd = outcome === "recalled" || outcome === "void";
    const ring = odd ? `<circle cx="${x}" cy="${y}" r="12" fill="none" stroke="var(--gone-text)" stroke-width="1.6" stroke-dasharray="${outcome === "void" ? "1 2.5" : "4 2.5"}"/>` : "";
    return `${ring}<circle cx="${x}" cy="${y}" r="9.5" fill="${outcome === "void" ? "var(--panel)" : colourOf(this.run, command)}" stroke="var(--node-edge)" stroke-width="1"/><text x="${x}" y="${y + 3.7}" text-anchor="middle" font-size="10.5" font-weight="600" fill="${outcome === "void" ? "var(--dim)" : textOf(this.run, command)}">${this.places.get(number)}</text>`;
  }
  svg() {
    const edges = this.order.flatMap((it) => this.run.commands[it].parents.map((parent) => this.edge(parent, it)));
    return `<svg aria-hidden="true" width="${this.width}" height="${STEP * this.order.length}" font-family="system-ui, sans-serif">${edges.join("")}${this.order.map((it) => this.node(it)).join("")}</svg>`;
  }
  label(number, isNew) {
    const command = this.run.commands[number], entry = this.entries.get(number);
    if (command.kind === "merge") return `merge of two heads${isNew ? ", new at this line" : ""}`;
    const fields = (command.fields || []).map(([name, value]) => `${name} ${value}`).join(", ");
    return [`place ${this.places.get(number)}: ${command.name}`, `by ${command.author}`, fields, this.rank(command), entry && entry.outcome, isNew && "new at this line"].filter(Boolean).join(", ");
  }
  rank(command) { return command.kind === "basic" ? `priority ${command.priority}` : command.kind; }
  row(number, isNew) {
    const command = this.run.commands[number], entry = this.entries.get(number) || {};
    const chips = [["recalled", "void"].includes(entry.outcome) ? `<span class="chip ${entry.outcome}">${entry.outcome}</span>` : "", isNew ? '<span class="chip new">new</span>' : ""].join(" ");
    const words = command.kind === "merge" ? "merge" : `<span class="name">${esc(this.run.called(number))}</span> <span class="dim">${command.kind === "finalize" ? "finalize: closed up to here" : this.rank(command)}</span>`;
    const kinds = [command.kind, entry.outcome, isNew ? "new" : ""].filter(Boolean).join(" ");
    return `<li role="option" tabindex="-1" aria-selected="false" data-command="${number}" class="${kinds}" style="padding-left:${this.width + 4}px" aria-label="${esc(this.label(number, isNew))}">${chips} ${words}</li>`;
  }
}

// ---- a run on the page

class View {
  constructor(run, page, word) {
    this.run = run;
    this.page = page;
    // The ids of its lines begin with this word.
    this.word = word;
    this.replica = 0;
    this.root = document.createElement("section");
    this.root.className = "run" + (run.heading ? " named" : "");
    this.root.setAttribute("aria-label", run.heading || "the run");
    this.lanes = new Lanes(run);
    this.root.innerHTML = (run.heading ? `<h2>${esc(run.heading)}</h2>` : "") + `<div class="script" tabindex="-1">${this.sheet()}</div><div class="told"></div>`;
    this.told = this.root.querySelector(".told");
    this.script = this.root.querySelector(".script");
    this.list = this.root.querySelector(".lines");
    this.items = [...this.list.children];
    this.heads = [...this.root.querySelectorAll(".lanes-head button")];
    this.list.addEventListener("click", (event) => {
      const item = event.target.closest("li");
      if (item) page.goTo(page.positionOf(this, this.items.indexOf(item)));
    });
    this.root.addEventListener("click", (event) => {
      const button = event.target.closest("[data-replica]");
      if (button) page.choose(run.replicas[+button.dataset.replica]);
    });
    for (const kind of ["mouseover", "focusin"]) this.told.addEventListener(kind, (event) => this.showCard(event));
    for (const kind of ["mouseout", "focusout"]) this.told.addEventListener(kind, () => ($("card").hidden = true));
    this.told.addEventListener("keydown", (event) => this.moveInGraph(event));
  }
  sheet() {
    const { run, lanes } = this;
    const rows = run.lines.map((line, at) => {
      const chips = (line.x || []).map((it) => `<span class="chip ${it}">${it}</span>`).join("");
      const kind = line.k ? "" : "comment", first = run.first === at ? '<span class="chip first">facts differ</span>' : "";
      return `<li role="option" id="${this.word}-${at + 1}" aria-selected="false" aria-label="line ${at + 1}: ${esc(line.t || "blank")}${line.x && line.x.length ? ", " + line.x.join(", ") : ""}"><span class="number">${at + 1}</span><span class="text ${kind}">${esc(line.t)}</span>${first}${chips}<span class="room" style="width:${lanes.width}px"></span></li>`;
    });
    const heads = run.replicas.map((it, at) => `<button aria-pressed="false" data-replica="${at}" style="width:${lanes.step}px">${esc(it)}<small></small></button>`).join("");
    const head = `<div class="lanes-head"><span class="over">script</span><span role="group" aria-label="replica" style="display:flex;width:${lanes.width}px;padding-left:${lanes.left}px">${heads}</span></div>`;
    return `<div class="sheet">${head}<ol class="lines" role="listbox" tabindex="0" aria-label="script">${rows.join("")}</ol>${lanes.svg()}</div>`;
  }
  // Shows what stands after a line. `other` gives another run's facts by a replica's name.
  show(at, other) {
    this.markLines(at);
    this.at = at;
    const states = this.run.states[at] || this.run.replicas.map(() => null);
    const veil = this.root.querySelector(".veil");
    veil.setAttribute("y", ROW * (at + 1));
    veil.setAttribute("height", Math.max(0, ROW * (this.run.lines.length - at - 1)));
    this.heads.forEach((it, replica) => {
      const state = states[replica];
      it.setAttribute("aria-pressed", replica === this.replica);
      const counts = state && [counted(state.commands.length, "command"), counted(state.facts.length, "fact")];
      it.querySelector("small").innerHTML = !state ? "–" : this.lanes.step >= 60 ? counts.join("<br>") : `${state.commands.length}c ${state.facts.length}f`;
      it.setAttribute("aria-label", `replica ${this.run.replicas[replica]}: ${state ? `${counted(state.commands.length, "command")}, ${counted(state.facts.length, "fact")}` : "not declared yet"}`);
      it.title = it.getAttribute("aria-label");
    });
    this.keepInSight(at);
    this.told.innerHTML = this.lineBox(at) + this.chooser() + `<div class="columns"><div>${this.graphBox(states)}${this.effectsBox(states)}</div><div class="facts">${this.factsBoxes(states, other)}</div></div>`;
    const first = this.told.querySelector(".graph li");
    if (first) first.tabIndex = 0;
    const fresh = this.told.querySelector(".graph li.new:last-of-type") || [...this.told.querySelectorAll(".graph li.new")].pop(), box = this.told.querySelector(".graph");
    if (box && fresh && fresh.offsetTop + STEP > box.clientHeight) box.scrollTop = fresh.offsetTop - box.clientHeight / 2;
  }
  // Marks the chosen line and those after it. Only the lines between the last choice and this one change.
  markLines(at) {
    const was = this.at ?? -1;
    for (let row = Math.min(was, at) + 1; row <= Math.max(was, at); row++) this.items[row].classList.toggle("later", row > at);
    if (this.at === undefined) for (let row = at + 1; row < this.items.length; row++) this.items[row].classList.add("later");
    if (this.items[was]) this.items[was].setAttribute("aria-selected", false);
    if (!this.items[at]) return;
    this.items[at].setAttribute("aria-selected", true);
    this.list.setAttribute("aria-activedescendant", this.items[at].id);
  }
  keepInSight(at) {
    const top = 46 + ROW * at, view = this.script;
    if (top < view.scrollTop + 50 || top + ROW * 3 > view.scrollTop + view.clientHeight) view.scrollTop = Math.max(0, top - view.clientHeight / 2);
  }
  lineBox(at) {
    const line = this.run.lines[at];
    if (!line) return "";
    const printed = (line.p || []).map((it) => `<div class="printed mono">${esc(it)}</div>`).join("");
    const says = (line.s || []).map((it) => `<p>${ticks(this.run.pretty(it))}</p>`).join("");
    const late = line.late ? "<p>The run ended before this line.</p>" : "";
    return `<div class="box line-box"><h2>Line ${at + 1}</h2><pre>${esc(line.t) || "(blank)"}</pre>${printed}${says}${late}${this.turned(at).join("")}</div>`;
  }
  // The commands that came to another outcome at this line, and why.
  turned(at) {
    return (this.run.lines[at].q || []).map(([title, outcome, why]) => `<div class="why ${outcome}"><p><strong>${esc(title)}</strong></p><p>${this.run.whys[why].map(ticks).join(" ")}</p></div>`);
  }
  chooser() {
    const buttons = this.run.replicas.map((it, at) => `<button aria-pressed="${at === this.replica}" data-replica="${at}">${esc(it)}</button>`).join("");
    return `<div class="choose" role="group" aria-label="replica whose graph and effects are shown"><span class="dim">Replica:</span>${buttons}</div>`;
  }
  isNew(state) { return state && state.at === this.at; }
  graphBox(states) {
    const name = this.run.replicas[this.replica], state = states[this.replica];
    if (!state || !state.commands.length) return `<div class="box"><h2>Graph of ${esc(name || "")}</h2><p class="dim">${state ? "It holds no command." : "It isn't declared yet."}</p></div>`;
    const rows = new GraphRows(this.run, state), fresh = new Set(this.isNew(state) ? this.run.lines[this.at].d.g : []);
    this.rows = rows;
    const authors = rows.columns.map((it, at) => `<span style="left:${5 + COLUMN * (at + 0.5)}px">${esc(it.length > 6 && rows.columns.length > 1 ? it.slice(0, 5) + "…" : it)}</span>`).join("");
    const list = `<div class="graph"><div class="authors" aria-hidden="true" style="width:${rows.width}px">${authors}</div><div style="position:relative">${rows.svg()}<ol role="listbox" aria-label="graph of ${esc(name)}, in the order of the braid">${rows.order.map((it) => rows.row(it, fresh.has(it))).join("")}</ol></div></div>`;
    return `<div class="box"><h2>Graph of ${esc(name)} <span class="dim">numbered in the order of the braid</span></h2>${list}${this.legend()}</div>`;
  }
  legend() {
    const shades = [...this.run.colours].map(([priority, at]) => `<span><i style="background:${COLOURS[at]}"></i>priority ${priority}</span>`);
    return `<div class="legend">${shades.join("")}<span>◇ merge</span><span>dashed ring: recalled or void</span><span>a column an author</span></div>`;
  }
  effectItem(text, kind, recalled) {
    return `<li class="${kind}">${kind === "gone" ? '<span class="unseen">taken back: </span>' : kind === "came" ? '<span class="unseen">new: </span>' : ""}<span data-effect>${esc(text)}</span>${recalled ? ' <span class="chip recalled">recalled</span>' : ""}</li>`;
  }
  effectsBox(states) {
    const name = this.run.replicas[this.replica], state = states[this.replica];
    if (!state) return "";
    const isNew = this.isNew(state), rows = [], cut = isNew && state.before ? state.cut : null;
    const place = (at) => {
      if (cut !== at) return;
      const kept = `Cut ${cut}: ${cut === 1 ? "the entry above stands" : cut ? `the ${cut} entries above stand` : "no entry of the run before stands"}`;
      rows.push(`<li class="cut">${kept}; ${counted(state.entries.length - cut, "command")} ran anew below.</li>`);
    };
    const gone = cut === null ? [] : state.before.entries.slice(cut).map((it) => this.run.entry(it));
    state.entries.forEach((number, at) => {
      place(at);
      const entry = this.run.entry(number), came = cut !== null && at >= cut ? "came" : "";
      if (!state.effects) for (const it of entry.effects) rows.push(this.effectItem(this.run.effect(it), came, entry.outcome === "recalled"));
    });
    place(state.entries.length);
    if (state.effects) for (const [it, recalled] of state.effects) rows.push(this.effectItem(this.run.effect(it), "", recalled));
    const back = gone.flatMap((entry) => entry.effects.map((it) => this.effectItem(this.run.effect(it), "gone", entry.outcome === "recalled")));
    const taken = back.length ? `<h3>Of the run before, after the cut</h3><ol>${back.join("")}</ol>` : "";
    const count = rows.filter((it) => it.includes("data-effect")).length;
    return `<div class="box effects" data-effects="${esc(name)}"><h2>Effects of ${esc(name)} <span class="dim">${count}, in the order of the braid</span></h2><ol data-now>${rows.join("") || '<li class="dim">none</li>'}</ol>${taken}</div>`;
  }
  factsBoxes(states, other) {
    const order = this.run.replicas.map((_, at) => at);
    order.sort((a, b) => (b === this.replica) - (a === this.replica));
    return `<h2>Facts</h2>` + order.map((replica) => this.factsBox(replica, states[replica], other)).join("");
  }
  factsBox(replica, state, other) {
    const name = this.run.replicas[replica], beside = other && other(name);
    const rows = state ? this.run.factRows(state, this.isNew(state)) : [];
    const items = rows.map(([number, kind]) => {
      const text = this.run.fact(number), apart = kind !== "gone" && beside && !beside.has(this.run.facts[number]);
      const told = kind === "came" ? "added: " : kind === "gone" ? "taken away: " : "";
      return `<li class="${kind}${apart ? " apart" : ""}"><span class="unseen">${told}${apart ? "only in this run: " : ""}</span><span data-fact>${esc(text)}</span></li>`;
    });
    const body = !state ? '<p class="dim">not declared yet</p>' : items.length ? `<ul>${items.join("")}</ul>` : '<p class="dim">none</p>';
    return `<div class="box ${replica === this.replica ? "chosen" : ""}" data-facts="${esc(name)}"><h3>${esc(name)} <span class="dim">${state ? counted(state.facts.length, "fact") : ""}</span></h3>${body}</div>`;
  }
  // ---- the card of a command
  showCard(event) {
    const item = event.target.closest(".graph li"), card = $("card");
    if (!item) return;
    const state = this.run.states[this.at][this.replica], number = +item.dataset.command;
    card.innerHTML = this.cardOf(number, state);
    card.hidden = false;
    const box = item.getBoundingClientRect(), size = card.getBoundingClientRect();
    const below = box.bottom + 4 + size.height < innerHeight;
    card.style.left = `${Math.max(4, Math.min(box.left + 40, innerWidth - size.width - 6))}px`;
    card.style.top = `${below ? box.bottom + 4 : Math.max(4, box.top - size.height - 4)}px`;
  }
  cardOf(number, state) {
    const { run } = this, command = run.commands[number], entry = this.rows.entries.get(number);
    const now = this.rows.places.get(number), was = this.isNew(state) && run.places(state.before).get(number);
    const rows = [];
    if (command.kind === "merge") rows.push(["kind", "merge: it joins two heads, and has no place in the braid"]);
    else {
      rows.push(["author", command.author], ["arguments", command.fields ? command.fields.map(([name, value]) => `${name}: ${value}`).join(", ") || "none" : "not known"]);
      rows.push(["kind", this.rows.rank(command)], ["place", `${now} of ${state.entries.length} in the braid${was && was !== now ? ` (${was} before this line)` : ""}`]);
      rows.push(["outcome", entry.outcome], ["effects", entry.effects.map((it) => run.effect(it)).join("; ") || "none"]);
    }
    rows.push(["parents", command.parents.map((it) => run.called(it) + (this.rows.places.has(it) ? ` (place ${this.rows.places.get(it)})` : "")).join(" and ") || "none"], ["id", command.id.slice(0, 16) + ".."]);
    const why = entry && entry.why ? `<div class="why ${entry.outcome}">${entry.why.map(ticks).join(" ")}</div>` : "";
    const source = run.sources[command.name] ? `<pre>${esc(run.sources[command.name])}</pre>` : "";
    return `<strong>${esc(run.called(number))}</strong><dl>${rows.map(([name, value]) => `<dt>${name}</dt><dd>${esc(value)}</dd>`).join("")}</dl>${why}${source}`;
  }
  moveInGraph(event) {
    const item = event.target.closest(".graph li"), steps = { ArrowDown: 1, ArrowUp: -1 };
    if (!item || !(event.key in steps)) return;
    const next = steps[event.key] === 1 ? item.nextElementSibling : item.previousElementSibling;
    event.preventDefault();
    event.stopPropagation();
    if (!next) return;
    item.tabIndex = -1;
    next.tabIndex = 0;
    next.focus();
  }
}

// ---- the page: one position for all runs

class Page {
  constructor(all) {
    this.runs = all.runs.map((it) => new Run(it));
    // Each position as a line of each run.
    this.rows = all.rows || this.runs[0].lines.map((_, at) => [at]);
    this.views = this.runs.map((it, at) => new View(it, this, at ? "other" : "line"));
    if (this.views.length > 1) document.body.classList.add("beside");
    $("runs").append(...this.views.map((it) => it.root));
    $("title").textContent = all.title;
    $("note").textContent = all.note || "";
    $("note").hidden = !all.note;
    $("slider").max = this.rows.length;
    this.marks = this.rows.flatMap((row, at) => (this.views.some((view, run) => (at === 0 || this.rows[at - 1][run] !== row[run]) && view.run.lines[row[run]] && (view.run.lines[row[run]].x || []).length) || at === all.first ? [at] : []));
    $("mark").disabled = !this.marks.length;
    $("help").innerHTML = HELP;
    $("slider").addEventListener("input", () => this.goTo($("slider").value - 1));
    $("back").addEventListener("click", () => this.goTo(this.position - 1));
    $("forth").addEventListener("click", () => this.goTo(this.position + 1));
    $("mark").addEventListener("click", () => this.goToMark());
    $("follow").addEventListener("change", () => this.goTo(this.position));
    document.addEventListener("keydown", (event) => this.pressed(event));
    addEventListener("hashchange", () => this.goTo(this.asked(this.position)));
    this.goTo(this.asked(all.first ?? this.opening()), location.hash ? null : all.name);
  }
  asked(otherwise) {
    const line = +location.hash.slice(1);
    return Number.isInteger(line) && line >= 1 ? this.positionOf(this.views[0], line - 1) : otherwise;
  }
  // A reader begins where a command was first recalled or void, or else at the end.
  opening() {
    const at = this.runs[0].lines.findIndex((it) => it.x && (it.x.includes("recalled") || it.x.includes("void")));
    return at >= 0 ? this.positionOf(this.views[0], at) : this.rows.length - 1;
  }
  positionOf(view, line) {
    const run = this.views.indexOf(view), at = this.rows.findIndex((it) => it[run] >= line);
    return at < 0 ? this.rows.length - 1 : at;
  }
  // Shows a position, with the replica of its line or the one that is named.
  goTo(position, name) {
    this.position = Math.max(0, Math.min(this.rows.length - 1, position));
    const row = this.rows[this.position];
    if (name) this.chooseName(name);
    else if ($("follow").checked) this.follow(row);
    this.views.forEach((view, at) => view.show(row[at], this.views.length > 1 ? (name) => this.factsOf(1 - at, row, name) : null));
    $("slider").value = this.position + 1;
    const first = this.runs[0].lines[row[0]];
    $("slider").setAttribute("aria-valuetext", `line ${row[0] + 1}: ${first ? first.t : ""}`);
    $("position").textContent = `${this.position + 1} of ${this.rows.length}`;
    $("spoken").textContent = first ? `Line ${row[0] + 1}: ${first.t}. ${(first.p || []).join(". ")}` : "";
    $("card").hidden = true;
  }
  // The facts of a replica in a run, as texts, or none where it isn't there.
  factsOf(at, row, name) {
    const run = this.runs[at], replica = run.replicas.indexOf(name), state = replica < 0 ? null : (run.states[row[at]] || [])[replica];
    return new Set(state ? state.facts.map((it) => run.facts[it]) : []);
  }
  follow(row) {
    this.views.forEach((view, at) => {
      const before = this.position ? this.rows[this.position - 1][at] : -1, line = view.run.lines[row[at]];
      if (line && line.r !== undefined && (before !== row[at] || this.position === 0)) this.chooseName(view.run.replicas[line.r]);
    });
  }
  chooseName(name) { for (const view of this.views) if (view.run.replicas.includes(name)) view.replica = view.run.replicas.indexOf(name); }
  choose(name) {
    $("follow").checked = false;
    this.chooseName(name);
    this.goTo(this.position);
    const chosen = document.querySelector('.choose [aria-pressed="true"]');
    if (chosen) chosen.focus({ preventScroll: true });
  }
  goToMark(back) {
    const found = back ? this.marks.filter((it) => it < this.position).pop() : this.marks.find((it) => it > this.position);
    this.goTo(found ?? this.marks[back ? this.marks.length - 1 : 0] ?? this.position);
  }
  pressed(event) {
    if (event.ctrlKey || event.metaKey || event.altKey) return;
    const to = { ArrowRight: this.position + 1, ArrowDown: this.position + 1, ArrowLeft: this.position - 1, ArrowUp: this.position - 1, Home: 0, End: this.rows.length - 1, PageDown: this.position + 10, PageUp: this.position - 10 }[event.key];
    const names = this.runs[0].replicas;
    if (to !== undefined) this.goTo(to);
    else if (event.key === "m" || event.key === "M") this.goToMark(event.key === "M");
    else if (event.key === "f") $("follow").click();
    else if (event.key === "Escape") $("card").hidden = true;
    else if (/^[1-8]$/.test(event.key) && names[event.key - 1]) this.choose(names[event.key - 1]);
    else return;
    event.preventDefault();
  }
}

const HELP = `<dl><dt>← →, ↑ ↓</dt><dd>a line back, a line on</dd><dt>Home, End</dt><dd>the first line, the last</dd><dt>m, M</dt><dd>the next mark, the one before: a line at which something was refused, recalled or void</dd><dt>1 to 8</dt><dd>choose a replica</dd><dt>f</dt><dd>follow the line's replica, or not</dd><dt>↑ ↓ in the graph</dt><dd>from command to command</dd></dl><p><strong>Lanes:</strong> a filled circle is an action, an empty one a message, a cross a refusal. An arrow is a sync or a message, a dashed one a join. <em>9c 4f</em> says 9 commands and 4 facts.</p><p><strong>Facts:</strong> + was added by this line, − was taken away. Beside another run, a bar at the left marks a fact that is in this run alone.</p><p><strong>Recalled:</strong> a check fails where the command now stands in the order, so its recall block ran instead. <strong>Void:</strong> neither block passed, so nothing changes. <strong>Cut:</strong> entries of the run before that still stand at the front.</p>`;
const page = new Page(ALL);
