// The page: one position in the run, which the picture, the list, the lanes and the panel show.

const byId = (id) => document.getElementById(id);

class Page {
  constructor(run) {
    this.run = run;
    this.position = 0;
    this.found = [];
    this.broken = new Map();
    for (const it of run.rules) {
      const position = it.verdict === "broken" && it.line ? run.positionOfLine(it.line) : 0;
      if (position) this.broken.set(position, [...(this.broken.get(position) ?? []), it.name]);
    }
    const go = (position) => this.go(position);
    this.lines = new Lines(run, byId("lines"), go, this.broken);
    this.lanes = new Lanes(run, byId("lane-table"), byId("canvas"), byId("cursor"), go);
    const toggle = (slot) => { this.lanes.toggle(slot); };
    const [open, enter] = [(instance) => this.open(instance), (instance) => this.enter(instance)];
    this.panel = new Panel(run, byId("panel"), { go, open, enter, toggle }, this.lanes);
    byId("tick").value = byId("slider").value = 0;
    this.controls();
    this.zooms();
    this.rules();
    this.blocks();
    this.enter(-1, true);
    const first = run.instances.findIndex((it) => run.charts[it.type]);
    if (run.instances.length) this.open(Math.max(first, 0));
    run.slots.map((it, slot) => (it.role === "state" ? slot : -1)).filter((slot) => slot >= 0).slice(0, 3).forEach(toggle);
    this.readHash() || go(Math.min(1, run.length));
  }

  controls() {
    const { run } = this;
    const [slider, tick] = [byId("slider"), byId("tick")];
    [slider.min, slider.max] = run.length ? [run.ticks[0], run.ticks[run.length - 1]] : [0, 0];
    slider.addEventListener("input", () => this.go(run.before(Number(slider.value) + 1)));
    tick.addEventListener("change", () => this.go(run.positionOf(Number(tick.value))));
    byId("first").addEventListener("click", () => this.go(0));
    byId("back").addEventListener("click", () => this.go(this.position - 1));
    byId("forward").addEventListener("click", () => this.go(this.position + 1));
    byId("last").addEventListener("click", () => this.go(run.length));
    byId("search").addEventListener("submit", (event) => { event.preventDefault(); this.find(byId("pattern").value); });
    byId("previous-hit").addEventListener("click", () => this.nextHit(-1));
    byId("next-hit").addEventListener("click", () => this.nextHit(1));
    byId("lanes-in").addEventListener("click", () => this.lanes.zoom(0.5));
    byId("lanes-out").addEventListener("click", () => this.lanes.zoom(2));
    document.addEventListener("keydown", (event) => this.key(event));
    addEventListener("hashchange", () => this.readHash());
  }

  key(event) {
    if (event.ctrlKey || event.metaKey || event.altKey || event.target.closest("input, select, textarea")) return;
    const { run, position } = this;
    const tick = run.tickAt(position);
    const keys = {
      ArrowRight: () => this.go(event.shiftKey ? Math.min(run.length, run.before(tick + 1) + 1) : position + 1),
      ArrowLeft: () => this.go(event.shiftKey ? run.before(tick) : position - 1),
      Home: () => this.go(0), End: () => this.go(run.length),
      "/": () => byId("pattern").focus(), n: () => this.nextHit(1), N: () => this.nextHit(-1),
    };
    if (!keys[event.key]) return;
    event.preventDefault();
    keys[event.key]();
  }

  // Goes to the tick that the address names, and returns whether it names one.
  readHash() {
    if (!/^#\d+$/.test(location.hash)) return false;
    this.go(this.run.positionOf(Number(location.hash.slice(1))));
    return true;
  }

  zooms() {
    const scale = (factor) => { this.scale *= factor; this.resize(); };
    byId("zoom-in").addEventListener("click", () => scale(1.25));
    byId("zoom-out").addEventListener("click", () => scale(0.8));
    byId("zoom-fit").addEventListener("click", () => {
      const { clientWidth, clientHeight } = byId("picture");
      this.scale = Math.min((clientWidth - 4) / this.picture.size[0], (clientHeight - 4) / this.picture.size[1]);
      this.resize();
    });
  }

  resize() {
    const all = byId("picture").querySelector("svg.network");
    if (!all) return;
    this.scale = Math.max(0.1, Math.min(4, this.scale));
    all.setAttribute("width", this.picture.size[0] * this.scale);
    all.setAttribute("height", this.picture.size[1] * this.scale);
  }

  rules() {
    const { rules } = this.run;
    const broken = rules.filter((it) => it.verdict === "broken");
    byId("rules").hidden = !rules.length;
    byId("rules").open = broken.length > 0;
    byId("rule-count").textContent = ["broken", "undecided", "never applied", "kept"].map((verdict) => [rules.filter((it) => it.verdict === verdict).length, verdict])
      .filter(([count]) => count).map((them) => them.join(" ")).join(", ");
    byId("rule-count").classList.toggle("fault", broken.length > 0);
    byId("rule-list").replaceChildren(...[...broken, ...rules.filter((it) => it.verdict !== "broken")].map((it) => {
      const row = element("li", it.verdict.replace(" ", "-"), [element("span", "verdict", it.verdict), element("span", "rule-name", it.name)]);
      if (it.verdict !== "broken") return row;
      row.append(element("span", "message", it.message));
      if (!it.line) return row;
      const button = element("button", "", `line ${it.line}, tick ${it.tick}`);
      const position = this.run.positionOfLine(it.line);
      button.disabled = !position;
      if (!position) button.textContent += ", out of the range";
      button.addEventListener("click", () => this.go(position));
      row.append(button);
      return row;
    }));
  }

  // The field that opens a block by its path.
  blocks() {
    const field = byId("block-path");
    byId("paths").replaceChildren(...this.run.instances.map((it) => { const made = element("option"); made.value = it.path; return made; }));
    field.addEventListener("change", () => {
      const number = this.run.instances.findIndex((it) => it.path === field.value.trim().toUpperCase());
      field.setAttribute("aria-invalid", String(number < 0));
      if (number >= 0) { this.open(number, false); field.value = ""; }
    });
  }

  // Opens a block: the panel shows it, and of a composite the picture shows its network.
  open(instance, enters = true) {
    this.panel.open(instance, this.run.stateAt(this.position), this.position);
    if (enters && this.run.networks[this.run.instances[instance].type]) this.enter(instance);
    this.choose();
  }

  choose() {
    for (const [number, it] of this.picture.blocks) it.classList.toggle("chosen", number === this.panel.instance);
  }

  // Shows the network of a composite, or of the application for -1.
  enter(instance, isFirst = false) {
    this.picture = new Picture(this.run, byId("picture"), instance, (number) => this.open(number));
    const { clientWidth, clientHeight } = byId("picture");
    const [width, height] = this.picture.size ?? [1, 1];
    const whole = Math.min((clientWidth - 4) / width, (clientHeight - 4) / height);
    // (the whole picture if its letters can then be read, else what they need)
    this.scale = whole >= 0.7 ? Math.min(1.2, whole) : Math.max(0.8, Math.min(1, (clientWidth - 4) / width));
    this.resize();
    for (const it of document.querySelectorAll(".zoom")) it.hidden = !this.picture.size;
    const way = [];
    for (let at = instance; at >= 0; at = this.run.instances[at].parent) way.unshift(at);
    byId("way").replaceChildren(...[-1, ...way].map((at) => {
      const name = at < 0 ? this.run.name : this.run.instances[at].path.split(".").pop();
      const button = element("button", "plain", name);
      if (at === instance) button.setAttribute("aria-current", "page");
      button.addEventListener("click", () => this.enter(at));
      return element("li", "", [button]);
    }));
    if (isFirst) return;
    this.picture.show(this.position, this.run.stateAt(this.position));
    this.choose();
  }

  find(text) {
    const output = byId("hits");
    try {
      this.found = text.trim() ? this.run.search(new Pattern(text)) : [];
      output.textContent = text.trim() ? `${this.found.length.toLocaleString("en")} lines` : "";
      output.classList.remove("fault");
    } catch (fault) {
      this.found = [];
      output.textContent = fault.message;
      output.classList.add("fault");
    }
    this.lines.hits = new Set(this.found);
    this.lanes.hits = this.found;
    this.lanes.draw();
    for (const id of ["previous-hit", "next-hit"]) byId(id).disabled = !this.found.length;
    if (this.found.length && !this.lines.hits.has(this.position)) this.nextHit(1); else { this.lines.fill(); this.showHits(); }
  }

  // Goes to the next line that was found, or the one before, round the end.
  nextHit(way) {
    if (!this.found.length) return;
    const after = this.found.findIndex((it) => it > this.position);
    const number = way > 0 ? after : this.found.findLastIndex((it) => it < this.position);
    this.go(this.found[number < 0 ? (way > 0 ? 0 : this.found.length - 1) : number]);
  }

  // Says which of the lines that were found the position is, or how many there are.
  showHits() {
    if (!this.found.length) return;
    const count = this.found.length.toLocaleString("en");
    const isHit = this.lines.hits.has(this.position);
    byId("hits").textContent = isHit ? `${this.found.indexOf(this.position) + 1} of ${count}` : `${count} lines`;
  }

  go(position) {
    const { run } = this;
    this.position = Math.max(0, Math.min(run.length, Number.isFinite(position) ? position : 0));
    const state = run.stateAt(this.position);
    const tick = run.tickAt(this.position);
    byId("slider").value = tick;
    byId("slider").setAttribute("aria-valuetext", `tick ${tick}`);
    byId("tick").value = tick;
    byId("first").disabled = byId("back").disabled = this.position === 0;
    byId("forward").disabled = byId("last").disabled = this.position === run.length;
    this.now();
    this.showHits();
    this.picture.show(this.position, state);
    this.lines.show(this.position);
    this.lanes.show(this.position, state);
    this.panel.show(this.position, state);
    this.follow();
    clearTimeout(this.timer);
    this.timer = setTimeout(() => history.replaceState(null, "", `#${tick}`), 400);
  }

  // Scrolls the picture so that the block of the line is in view.
  follow() {
    if (!this.picture.focus) return;
    const holder = byId("picture");
    const [outer, inner] = [holder.getBoundingClientRect(), this.picture.focus.getBoundingClientRect()];
    if (inner.left < outer.left || inner.right > outer.right) holder.scrollLeft += (inner.left + inner.right - outer.left - outer.right) / 2;
    if (inner.top < outer.top || inner.bottom > outer.bottom) holder.scrollTop += (inner.top + inner.bottom - outer.top - outer.bottom) / 2;
  }

  // What the line at the position is, and what happens inside after it.
  now() {
    const { run, position } = this;
    byId("place").textContent = `Line ${(run.linesBefore + position).toLocaleString("en")} of ${run.linesBefore ? "the trace" : run.length.toLocaleString("en")}`;
    if (!position) {
      byId("now-line").textContent = "Before the first line";
      byId("inside").replaceChildren();
      byId("ways").replaceChildren();
      return;
    }
    const [tick, resource, sign, port, values] = run.partsAt(position);
    byId("now-line").replaceChildren(
      element("span", "tick", tick), " ", element("span", "resource", resource), " ", element("span", sign === ">" ? "taken" : "emitted", sign), " ",
      element("strong", "port", port), values ? " " : "", element("span", "values", values));
    byId("inside").replaceChildren(...run.insideAt(position).map((it) => element("li", it.kind, it.line)),
      ...(this.broken.get(position) ?? []).map((name) => element("li", "broken", `breaks the rule: ${name}`)));
    byId("ways").replaceChildren(...this.ways(position).map((it) => element("li", "", it)));
  }

  // The event connections at the port of a line: those that lead to it, or away from it.
  ways(position) {
    const { run } = this;
    const port = run.portAt(position);
    const at = run.instances[port.instance];
    const block = at.path.split(".").pop();
    const { connections } = run.networks[at.parent < 0 ? "" : run.instances[at.parent].type];
    const front = at.parent < 0 ? "" : `${run.instances[at.parent].path}.`;
    const name = (it, event) => (/^(in|out)$/.test(it) ? front + event : `${front}${it}.${event}`);
    const isTaken = port.sign === ">";
    return connections.filter((it) => it[4] && (isTaken ? it[2] === block && it[3] === port.event : it[0] === block && it[1] === port.event))
      .map((it) => (isTaken ? `from ${name(it[0], it[1])}` : `to ${name(it[2], it[3])}`));
  }
}

// The page, once its data are open.
let page = null;
opened(byId("data").textContent).then((data) => {
  page = new Page(new Run(data));
  document.body.classList.add("ready");
}).catch((fault) => {
  byId("now-line").textContent = `The page can't show its data: ${fault.message}. It needs a browser of 2023 or later.`;
  throw fault;
});
