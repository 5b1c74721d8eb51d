// The chosen block: what it remembers, its chart with the active state, and the events that it lost.

// The roles of variables, short.
const ROLES = { input: "in", output: "out", internal: "own" };

class Panel {
  // `call` has: open (an instance), go (to a position), enter (the network of a composite) and toggle (a lane of a slot).
  constructor(run, holder, call, lanes) {
    Object.assign(this, { run, holder, call, lanes });
    this.instance = -1;
  }

  open(instance, state, position) {
    const { run } = this;
    this.instance = instance;
    this.cells = [];
    const it = run.instances[instance];
    const facts = element("p", "facts", [it.type, " in ", it.resource, ...it.parameters.flatMap((at) => [", ", at])]);
    const parts = [element("h3", "path", it.path), facts];
    if (run.networks[it.type]) {
      const enter = element("button", "", "Show its network");
      enter.addEventListener("click", () => this.call.enter(instance));
      parts.push(enter);
    }
    const inside = [this.table(instance), this.chart(run.charts[it.type])].filter((part) => part);
    parts.push(element("div", "inside", inside), this.lostList(instance));
    this.holder.replaceChildren(...parts.filter((part) => part));
    this.show(position, state);
  }

  table(instance) {
    const { run } = this;
    const slots = run.slotsOf[instance].filter((slot) => run.slots[slot].role !== "count");
    if (!slots.length) return null;
    const body = document.createElement("tbody");
    for (const slot of slots) {
      const { role } = run.slots[slot];
      const isMemory = role === "state" || role === "memory";
      const head = element("th", "", isMemory ? role : run.slots[slot].name);
      head.scope = "row";
      const [cell, lane] = [element("td", "value"), element("button", "plain", "lane")];
      lane.setAttribute("aria-label", `Lane of ${isMemory ? role : run.slots[slot].name}`);
      lane.addEventListener("click", () => { this.call.toggle(slot); this.showLanes(); });
      body.append(element("tr", isMemory ? "memory-row" : "", [head, element("td", "role", ROLES[role] ?? ""), cell, element("td", "", [lane])]));
      this.cells.push({ slot, cell, lane, isMemory, shown: null });
    }
    const made = element("table", "variables", [body]);
    made.setAttribute("aria-label", `Variables of ${run.instances[instance].path}: name, role, value, and a lane over time`);
    return made;
  }

  chart(chart) {
    this.states = new Map();
    this.transitions = new Map();
    if (!chart) return null;
    if (!chart.drawing) return this.chartList(chart);
    const { size, nodes, edges } = chart.drawing;
    const made = drawn("svg", { viewBox: `-6 -6 ${size[0] + 12} ${size[1] + 12}`, width: size[0] + 12, class: "chart", role: "group", "aria-label": `Chart of ${chart.name}` });
    chart.transitions.forEach(([source, target, condition], number) => {
      const it = drawn("g", { class: "transition" });
      const edge = edges[number];
      it.append(drawn("path", { d: curve(edge), class: "edge" }), drawn("path", { d: arrow(edge), class: "tip" }));
      it.append(drawn("text", { x: edge[2][0], y: edge[2][1] + 4, class: "condition middle" }, condition));
      this.keep(`${source} -> ${target} by ${condition}`, it);
      made.append(it);
    });
    chart.states.forEach(([name, actions], number) => {
      const [x, y, width, height] = nodes[number];
      const it = drawn("g", { class: number ? "state" : "state initial", transform: `translate(${x},${y})` });
      it.append(drawn("rect", { width, height, rx: 8, class: "box" }));
      if (!number) it.append(drawn("rect", { x: 3, y: 3, width: width - 6, height: height - 6, rx: 6, class: "ring" }));
      it.append(drawn("text", { x: width / 2, y: 19, class: "name middle" }, name));
      actions.forEach((action, at) => it.append(drawn("text", { x: width / 2, y: 36 + LINE_HEIGHT * at, class: "action middle" }, action)));
      this.states.set(name, it);
      made.append(it);
    });
    return element("div", "chart-holder", [made]);
  }

  // In place of a picture of a chart: its states and its transitions.
  chartList(chart) {
    const made = element("ul", "chart-list");
    for (const [name, actions] of chart.states) {
      const it = element("li", "state", [element("strong", "", name), ...actions.map((action) => element("span", "", ` ${action}`))]);
      this.states.set(name, it);
      made.append(it);
      for (const [source, target, condition] of chart.transitions.filter((way) => way[0] === name)) {
        const way = element("li", "transition", `to ${target} by ${condition}`);
        this.keep(`${source} -> ${target} by ${condition}`, way);
        made.append(way);
      }
    }
    return made;
  }

  // Keeps the first of transitions that are alike: only this one clears.
  keep(text, it) { if (!this.transitions.has(text)) this.transitions.set(text, it); }

  lostList(instance) {
    const lost = this.run.lost[instance];
    if (!this.run.charts[this.run.instances[instance].type]) return null;
    const made = element("details", "lost-events", [element("summary", "", lost.length === 1 ? "1 lost event" : `${lost.length} lost events`)]);
    const list = element("ul");
    for (const position of lost.slice(0, 200)) {
      const button = element("button", "plain", this.run.textAt(position));
      button.addEventListener("click", () => this.call.go(position));
      const how = this.run.insideAt(position).find((it) => it.kind === "lost").line;
      list.append(element("li", "", [button, ` ${how}`]));
    }
    if (lost.length > 200) list.append(element("li", "", `and ${lost.length - 200} more`));
    if (lost.length) made.append(list);
    return made;
  }

  showLanes() {
    for (const it of this.cells) {
      it.lane.setAttribute("aria-pressed", String(this.lanes.has(it.slot)));
    }
  }

  show(position, state) {
    if (this.instance < 0) return;
    const { run } = this;
    const memory = run.memoryText(this.instance, state);
    const changed = new Set();
    if (position) run.eachChange(position, (slot) => changed.add(slot));
    for (const it of this.cells) {
      const text = it.isMemory ? memory : run.valueText(it.slot, state[it.slot]);
      if (it.shown !== text) it.cell.textContent = it.shown = text;
      it.cell.classList.toggle("lit", changed.has(it.slot));
    }
    this.showLanes();
    for (const [name, it] of this.states) it.classList.toggle("active", name === memory);
    const cleared = new Set();
    if (position) {
      for (const it of run.insideAt(position)) if (it.kind === "transition" && it.instance === this.instance) cleared.add(it.line);
    }
    for (const [text, it] of this.transitions) it.classList.toggle("lit", cleared.has(text));
  }
}
