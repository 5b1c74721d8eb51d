// The picture of a network: blocks with the values at their ports, connections, and what a step lights up.
// Heights and widths are those of layout.py.

const [ROW, LINE_HEIGHT, TITLE, LETTER, MOST_VALUE] = [18, 15, 24, 6.7, 12];

// Returns an element of SVG, with attributes and a text.
function drawn(tag, attributes = {}, text = null) {
  const made = document.createElementNS("http://www.w3.org/2000/svg", tag);
  for (const [name, value] of Object.entries(attributes)) made.setAttribute(name, value);
  if (text !== null) made.textContent = text;
  return made;
}

// Returns an element of HTML, with a class and a text or what it has inside.
function element(tag, name = "", inside = null) {
  const made = document.createElement(tag);
  if (name) made.className = name;
  if (Array.isArray(inside)) made.append(...inside); else if (inside !== null) made.textContent = inside;
  return made;
}

function short(text) { return text.length > MOST_VALUE ? `${text.slice(0, MOST_VALUE - 1)}…` : text; }

// The path of a connection, from the points of its curves. A last point is the tip of an arrow.
function curve([points, tip]) {
  const [first, ...rest] = points.map((it) => it.join(","));
  return `M${first}C${rest.join(" ")}${tip ? `L${tip.join(",")}` : ""}`;
}

// The three corners of the arrow at the end of a curve.
function arrow([points, tip]) {
  const [x, y] = points[points.length - 1];
  const [dx, dy] = [tip[0] - x, tip[1] - y];
  const size = Math.hypot(dx, dy) || 1;
  const [ux, uy] = [(dx / size) * 9, (dy / size) * 9];
  const back = [tip[0] - ux, tip[1] - uy];
  return `M${tip.join(",")}L${back[0] - uy * 0.45},${back[1] + ux * 0.45}L${back[0] + uy * 0.45},${back[1] - ux * 0.45}Z`;
}

// The outline of a block: head and body, with a narrower neck between for its name.
function outline(width, head, title, body) {
  const neck = 12;
  // (a part without ports is only as high as its edge)
  const part = (height) => Math.min(5, height / 2);
  const [r, s] = [part(head), part(body)];
  return `M${r},0H${width - r}q${r},0 ${r},${r}V${head - r}q0,${r} ${-r},${r}H${width - neck}V${head + title}H${width - s}`
    + `q${s},0 ${s},${s}V${head + title + body - s}q0,${s} ${-s},${s}H${s}q${-s},0 ${-s},${-s}V${head + title + s}q0,${-s} ${s},${-s}H${neck}`
    + `V${head}H${r}q${-r},0 ${-r},${-r}V${r}q0,${-r} ${r},${-r}Z`;
}

class Picture {
  // A picture of the network of a composite instance, or of the application for instance -1. `open` takes an instance.
  constructor(run, holder, instance, open) {
    Object.assign(this, { run, holder, instance, open });
    const kind = instance < 0 ? "" : run.instances[instance].type;
    this.network = run.networks[kind];
    this.drawing = this.network.drawing;
    this.children = run.childrenOf.get(instance) ?? new Map();
    // What shows a value: its slot, its element, and the value that it shows. Then what shows a state of an instance.
    this.values = [];
    this.memories = [];
    this.lit = [];
    this.blocks = new Map();
    holder.replaceChildren(this.drawing ? this.svg() : this.list());
    if (this.blocks.size) [...this.blocks.values()][0].setAttribute("tabindex", "0");
  }

  svg() {
    const { size, nodes, areas, edges } = this.drawing;
    const all = drawn("svg", { viewBox: `-8 -8 ${size[0] + 16} ${size[1] + 16}`, role: "group", class: "network" });
    all.setAttribute("aria-label", `Network of ${this.network.name}: arrow keys go from block to block, Enter opens one`);
    this.size = [size[0] + 16, size[1] + 16];
    this.areas = new Map();
    const titles = Object.entries(areas).map(([number, area]) => this.area(this.network.resources[number], area, all));
    this.edges = [];
    for (const [number, edge] of Object.entries(edges)) this.edges[number] = this.edge(Number(number), edge, all);
    all.append(...titles);
    if (this.network.isOfResources) {
      this.network.resources.forEach((it, number) => all.append(this.resource(it, nodes[number])));
    } else {
      this.network.blocks.forEach((it, number) => all.append(this.block(it, nodes[number])));
    }
    return all;
  }

  // Draws the area of a resource, and returns its title, which comes above the connections.
  area(resource, [x, y, width, height], all) {
    const made = drawn("g", { class: "area" });
    made.append(drawn("rect", { x, y, width, height, rx: 10 }));
    all.append(made);
    this.areas.set(resource.name, made);
    const title = drawn("g", { class: "area-title" });
    title.append(drawn("text", { x: x + 14, y: y + 22, class: "area-name" }, `${resource.device}.${resource.name}`));
    const links = this.network.links.filter((it) => it[0] === resource.name);
    links.forEach((it, at) => {
      title.append(drawn("text", { x: x + 14, y: y + 38 + LINE_HEIGHT * at, class: "link" }, `to ${it[1]}: ${it[2]}`));
    });
    return title;
  }

  resource(resource, [x, y, width, height]) {
    const made = drawn("g", { class: "area", transform: `translate(${x},${y})` });
    made.append(drawn("rect", { width, height, rx: 8 }));
    made.append(drawn("text", { x: 12, y: 23, class: "area-name" }, `${resource.device}.${resource.name}`));
    made.append(drawn("text", { x: 12, y: 41, class: "link" }, `${resource.count} blocks`));
    this.areas.set(resource.name, made);
    return made;
  }

  edge(number, edge, all) {
    const isLink = this.network.isOfResources;
    const it = isLink ? null : this.network.connections[number];
    const made = drawn("path", { d: curve(edge), class: `edge ${isLink || it[4] ? "event" : "data"}` });
    const title = isLink ? this.network.links[number].slice(0, 2).join(" to ") : this.connectionText(it);
    made.append(drawn("title", {}, title));
    all.append(made);
    if (edge[1]) all.append(drawn("path", { d: arrow(edge), class: "tip event" }));
    if (isLink) all.append(drawn("text", { x: edge[2][0], y: edge[2][1] + 4, class: "link middle" }, this.network.links[number][2]));
    return made;
  }

  connectionText([source, sourcePort, target, targetPort]) {
    const name = (block, port) => (/^(in|out)$/.test(block) ? port : `${block}.${port}`);
    return `${name(source, sourcePort)} to ${name(target, targetPort)}`;
  }

  block(block, [x, y, width]) {
    const isEdge = block.type === "";
    const number = isEdge ? this.instance : this.children.get(block.name);
    const head = 4 + ROW * Math.max(block.ei.length, block.eo.length);
    const body = 4 + ROW * Math.max(block.di.length, block.do.length);
    const memory = isEdge ? "" : this.run.memoryText(number, this.run.wholeState(0));
    const title = isEdge ? 8 : TITLE + LINE_HEIGHT * (1 + block.parameters.length + (memory ? 1 : 0));
    const made = drawn("g", { transform: `translate(${x},${y})`, class: isEdge ? "block boundary" : "block" });
    if (isEdge) made.append(drawn("rect", { width, height: head + title + body, rx: 6, class: "box" }));
    else made.append(drawn("path", { d: outline(width, head, title, body), class: "box" }));
    const ports = { made, number, width };
    block.ei.forEach((it, at) => this.port(ports, it, 4 + ROW * at, true, false, isEdge));
    block.eo.forEach((it, at) => this.port(ports, it, 4 + ROW * at, true, true, isEdge));
    block.di.forEach((it, at) => this.port(ports, it, head + title + ROW * at, false, false, isEdge));
    block.do.forEach((it, at) => this.port(ports, it, head + title + ROW * at, false, true, isEdge));
    if (!isEdge) this.title(made, block, number, { width, head, memory });
    return made;
  }

  title(made, block, number, { width, head, memory }) {
    const middle = (row, name, text) => drawn("text", { x: width / 2, y: head + row, class: `${name} middle` }, text);
    made.append(middle(18, "name", block.name), middle(18 + LINE_HEIGHT, "type", block.type));
    block.parameters.forEach((it, at) => made.append(middle(18 + LINE_HEIGHT * (2 + at), "parameter", it)));
    if (memory) {
      const y = head + 18 + LINE_HEIGHT * (2 + block.parameters.length);
      const [box, text] = [drawn("rect", { y: y - 11, height: 14, rx: 7, class: "memory-box" }), drawn("text", { x: width / 2, y, class: "memory middle" })];
      made.append(box, text);
      this.memories.push({ instance: number, text, box, width, shown: null, group: made, name: `${block.name}, ${block.type}` });
    } else made.setAttribute("aria-label", `${block.name}, ${block.type}`);
    made.setAttribute("role", "button");
    made.setAttribute("tabindex", "-1");
    made.addEventListener("click", () => this.open(number));
    made.addEventListener("keydown", (event) => this.key(event, number));
    this.blocks.set(number, made);
  }

  // A port of a block, with the value of a variable. Ports of the boundary face inwards.
  port({ made, number, width }, name, y, isEvent, isRight, isEdge) {
    const side = isRight ? "right" : "left";
    const row = drawn("g", { class: `port ${isEvent ? "event" : "data"} ${side}` });
    row.append(drawn("rect", { x: isRight ? width / 2 : 2, y: y + 1, width: width / 2 - 2, height: ROW - 2, rx: 4, class: "light" }));
    const [edge, middle] = [isRight ? width : 0, y + ROW / 2];
    const shape = isEvent ? `M${edge - 4},${middle - 4}l8,4l-8,4z` : `M${edge - 3},${middle - 3}h6v6h-6z`;
    row.append(drawn("path", { d: shape, class: "pin" }));
    const text = drawn("text", { x: isRight ? width - 12 : 12, y: y + 13, class: side });
    text.append(name);
    const slot = isEvent ? undefined : this.run.slotsOf[number].find((it) => this.run.slots[it].name === name);
    if (slot !== undefined) {
      const value = drawn("tspan", { class: "value" });
      text.append(" ", value);
      if (isRight) text.replaceChildren(value, ` ${name}`);
      this.values.push({ slot, value, shown: null });
    }
    row.append(text);
    made.append(row);
    row.dataset.port = `${isEdge ? "edge" : number} ${isEvent ? "event" : "data"} ${name}`;
    this.ports ??= new Map();
    this.ports.set(row.dataset.port, row);
  }

  key(event, number) {
    const all = [...this.blocks.keys()];
    const step = { ArrowRight: 1, ArrowDown: 1, ArrowLeft: -1, ArrowUp: -1 }[event.key];
    if (event.key === "Enter" || event.key === " ") this.open(number);
    else if (step) this.blocks.get(all[(all.indexOf(number) + step + all.length) % all.length]).focus();
    else return;
    event.preventDefault();
    event.stopPropagation();
    for (const it of this.blocks.values()) it.setAttribute("tabindex", it === document.activeElement ? "0" : "-1");
  }

  // In place of a picture: the blocks of each resource, as buttons.
  list() {
    const made = element("div", "block-list");
    this.edges = [];
    this.areas = new Map();
    const button = (name) => {
      const number = this.children.get(name);
      const [text, memory] = [element("span", "", name), element("span", "memory-text")];
      const it = element("button", "block", [text, element("span", "type-text", this.run.instances[number].type), memory]);
      it.addEventListener("click", () => this.open(number));
      this.memories.push({ instance: number, text: memory, shown: null });
      this.blocks.set(number, it);
      return it;
    };
    const groups = this.network.resources.length ? this.network.resources.map((it) => [`${it.device}.${it.name}`, it.blocks, it.name])
      : [[this.network.name, this.network.blocks.filter((it) => it.type).map((it) => it.name), ""]];
    for (const [name, blocks, resource] of groups) {
      const group = element("section", "area", [element("h3", "", name), ...blocks.map(button)]);
      this.areas.set(resource, group);
      made.append(group);
    }
    return made;
  }

  // Shows the state at a position, and lights up what its line is about.
  show(position, state) {
    for (const it of this.values) {
      if (it.shown === state[it.slot]) continue;
      it.shown = state[it.slot];
      it.value.textContent = short(this.run.valueText(it.slot, it.shown));
    }
    for (const it of this.memories) this.showMemory(it, this.run.memoryText(it.instance, state));
    for (const it of this.lit) it.classList.remove("lit", "within");
    this.lit = [];
    if (position) this.light(position);
  }

  showMemory(it, text) {
    if (it.shown === text) return;
    it.shown = text;
    it.text.textContent = text;
    if (!it.box) return;
    const width = Math.min(it.width - 28, text.length * LETTER + 12);
    it.box.setAttribute("x", (it.width - width) / 2);
    it.box.setAttribute("width", width);
    it.group.setAttribute("aria-label", `${it.name}, ${text}`);
  }

  add(it, name = "lit") {
    if (!it) return;
    it.classList.add(name);
    this.lit.push(it);
  }

  light(position) {
    const port = this.run.portAt(position);
    const names = new Set(port.slots.map((slot) => this.run.slots[slot].name));
    this.focus = null;
    if (port.instance === this.instance) this.lightPorts("edge", port.event, names);
    else {
      let above = port.instance;
      while (above !== -1 && this.run.instances[above].parent !== this.instance) above = this.run.instances[above].parent;
      this.focus = this.blocks.get(above) ?? null;
      if (above === port.instance) this.lightPorts(above, port.event, names);
      this.add(this.focus, above === port.instance ? "lit" : "within");
    }
    this.add(this.areas.get(port.resource));
    for (const number of this.connectionsAt(position)) this.add(this.edges[number]);
  }

  lightPorts(owner, event, names) {
    if (!this.ports) return;
    this.add(this.ports.get(`${owner} event ${event}`));
    for (const name of names) this.add(this.ports.get(`${owner} data ${name}`));
  }

  // The numbers of the event connections that end at the port of a line that takes an event, or that begin where it is emitted.
  connectionsAt(position) {
    const { run, instance } = this;
    if (this.network.isOfResources) return [];
    const port = run.portAt(position);
    let [block, isSource] = [null, port.sign === "<"];
    if (port.instance === instance) [block, isSource] = [isSource ? "out" : "in", !isSource];
    else if (run.instances[port.instance].parent === instance) block = run.instances[port.instance].path.split(".").pop();
    const found = [];
    this.network.connections.forEach(([source, sourcePort, target, targetPort, isEvent], number) => {
      const [at, name] = isSource ? [source, sourcePort] : [target, targetPort];
      if (isEvent && at === block && name === port.event) found.push(number);
    });
    return found;
  }
}
