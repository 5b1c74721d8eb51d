// Lanes over time: when each resource has events, and how chosen states and variables change. The table beside them has
// the values at the position.

const LANE = 34;

class Lanes {
  constructor(run, table, canvas, cursor, go) {
    Object.assign(this, { run, table, canvas, cursor, go });
    this.rows = [...new Set(run.ports.map((it) => it.resource))].map((it) => ({ resource: it }));
    [this.from, this.to] = [...this.range()];
    this.hits = [];
    canvas.addEventListener("click", (event) => go(run.before(Math.floor(this.tickOf(event.offsetX)) + 1)));
    new ResizeObserver(() => this.draw()).observe(canvas.parentElement);
    matchMedia("(prefers-color-scheme: dark)").addEventListener("change", () => this.draw());
  }

  // The ticks of the range: from the first line to the end of the trace, or the last line.
  range() {
    const { ticks, length, end } = this.run;
    const first = length ? ticks[0] : 0;
    return [first, Math.max(first + 1, end ?? 0, length ? ticks[length - 1] : 0)];
  }

  tickOf(x) { return this.from + (x / this.canvas.clientWidth) * (this.to - this.from); }

  xOf(tick) { return ((tick - this.from) / (this.to - this.from)) * this.canvas.clientWidth; }

  has(slot) { return this.rows.some((it) => it.slot === slot); }

  // Adds a lane for a slot, or removes it.
  toggle(slot) {
    if (this.has(slot)) this.rows = this.rows.filter((it) => it.slot !== slot);
    else this.rows.push({ slot, signal: this.run.signal(slot) });
    this.draw();
  }

  // Shows a shorter stretch of time about the position, or a longer one.
  zoom(factor) {
    const [first, last] = this.range();
    const size = Math.min(last - first, Math.max(10, (this.to - this.from) * factor));
    const middle = this.run.tickAt(this.position ?? 0);
    this.from = Math.max(first, Math.min(last - size, middle - size / 2));
    this.to = this.from + size;
    this.draw();
  }

  name(row) {
    if (row.resource) return row.resource;
    const slot = this.run.slots[row.slot];
    return [this.run.instances[slot.instance].path, slot.name].filter((it) => it).join(".");
  }

  value(row, state) {
    if (row.resource) return "";
    const { role, instance } = this.run.slots[row.slot];
    return role === "state" || role === "memory" ? this.run.memoryText(instance, state) : this.run.valueText(row.slot, state[row.slot]);
  }

  show(position, state) {
    this.position = position;
    const tick = this.run.tickAt(position);
    const size = this.to - this.from;
    if (size < this.range()[1] - this.range()[0] && (tick < this.from || tick > this.to)) this.zoom(1);
    for (const it of this.rows) if (it.cell) it.cell.textContent = this.value(it, state);
    this.cursor.style.transform = `translateX(${this.xOf(tick)}px)`;
  }

  fillTable() {
    const body = this.table.tBodies[0];
    body.replaceChildren(...this.rows.map((it) => {
      const head = element("th", "", this.name(it));
      head.scope = "row";
      head.title = this.name(it);
      it.cell = element("td");
      const row = element("tr", "", [head, it.cell]);
      if (it.slot !== undefined) {
        const remove = element("button", "plain", "×");
        remove.setAttribute("aria-label", `Remove the lane ${this.name(it)}`);
        remove.addEventListener("click", () => this.toggle(it.slot));
        row.append(element("td", "remove", [remove]));
      } else row.append(element("td"));
      return row;
    }));
  }

  draw() {
    this.fillTable();
    const { canvas } = this;
    const height = this.rows.length * LANE + 22;
    canvas.style.height = this.cursor.style.height = `${height}px`;
    const scale = devicePixelRatio || 1;
    canvas.width = canvas.clientWidth * scale;
    canvas.height = height * scale;
    const pen = canvas.getContext("2d");
    pen.scale(scale, scale);
    const style = getComputedStyle(document.documentElement);
    const colour = (name) => style.getPropertyValue(`--${name}`).trim();
    this.axis(pen, colour, height);
    this.rows.forEach((it, at) => (it.resource ? this.marks(pen, colour, it, at * LANE) : this.steps(pen, colour, it, at * LANE)));
    pen.fillStyle = colour("hit");
    for (const position of this.hits) pen.fillRect(this.xOf(this.run.ticks[position - 1]) - 1, height - 22, 2, 5);
    if (this.position !== undefined) this.show(this.position, this.run.stateAt(this.position));
  }

  axis(pen, colour, height) {
    const width = this.canvas.clientWidth;
    const rough = ((this.to - this.from) * 90) / Math.max(width, 1);
    const power = 10 ** Math.floor(Math.log10(Math.max(rough, 1)));
    const step = [1, 2, 5, 10].map((it) => it * power).find((it) => it >= rough);
    pen.font = "11px system-ui, sans-serif";
    for (let tick = Math.ceil(this.from / step) * step; tick <= this.to; tick += step) {
      const x = Math.round(this.xOf(tick)) + 0.5;
      pen.fillStyle = colour("line");
      pen.fillRect(x, 0, 1, height - 18);
      pen.fillStyle = colour("quiet");
      const text = `${tick}`;
      const half = pen.measureText(text).width / 2;
      pen.fillText(text, Math.max(0, Math.min(width - 2 * half, x - half)), height - 5);
    }
    pen.fillStyle = colour("line");
    this.rows.forEach((_, at) => pen.fillRect(0, (at + 1) * LANE - 0.5, width, 1));
  }

  // A mark where a resource has lines.
  marks(pen, colour, row, top) {
    pen.fillStyle = colour("event");
    let before = -2;
    for (let at = 0; at < this.run.length; at++) {
      if (this.run.ports[this.run.columns.line[at]].resource !== row.resource) continue;
      const x = this.xOf(this.run.ticks[at]);
      if (x < 0 || x - before < 1) continue;
      if (x > this.canvas.clientWidth) break;
      pen.fillRect(Math.floor(x), top + 7, 2, LANE - 14);
      before = x;
    }
  }

  // A chart's states and truth values are bands; numbers are steps.
  steps(pen, colour, row, top) {
    const { positions, values } = row.signal;
    const slot = this.run.slots[row.slot];
    const isWord = slot.role === "state" || slot.role === "memory";
    const numbers = values.map(Number);
    const [least, most] = [Math.min(...bounded(numbers)), Math.max(...bounded(numbers))];
    const yOf = (value) => top + LANE - 7 - ((value - least) / (most - least || 1)) * (LANE - 14);
    const width = this.canvas.clientWidth;
    let done = -1;
    values.forEach((value, at) => {
      const x = Math.max(0, positions[at] ? this.xOf(this.run.ticks[positions[at] - 1]) : 0);
      const end = Math.min(width, at + 1 < values.length ? this.xOf(this.run.ticks[positions[at + 1] - 1]) : width);
      // (of many changes within a pixel, one is drawn)
      if (end < 0 || x > width || (end < done && at + 1 < values.length)) return;
      done = Math.max(done, Math.floor(x) + 1);
      if (isWord) this.band(pen, colour, { x, end, top, at: Number(value), text: this.run.words[value] });
      else if (slot.isTruth) {
        pen.fillStyle = colour(value ? "data" : "line");
        pen.fillRect(x, value ? top + 8 : top + LANE - 9, Math.max(1, end - x), value ? LANE - 16 : 2);
      } else {
        pen.fillStyle = colour("data");
        pen.fillRect(x, yOf(numbers[at]) - 1, Math.max(1, end - x), 2);
        if (at) pen.fillRect(x - 1, Math.min(yOf(numbers[at]), yOf(numbers[at - 1])) - 1, 2, Math.abs(yOf(numbers[at]) - yOf(numbers[at - 1])) + 2);
        if (end - x > 34) { pen.fillStyle = colour("text"); pen.fillText(String(value), x + 4, yOf(numbers[at]) - (numbers[at] > (least + most) / 2 ? -12 : 4)); }
      }
    });
  }

  band(pen, colour, { x, end, top, at, text }) {
    pen.fillStyle = colour(`band-${at % 4}`);
    pen.fillRect(x, top + 6, Math.max(1, end - x - 1), LANE - 12);
    pen.fillStyle = colour("text");
    if (end - x > pen.measureText(text).width + 10) pen.fillText(text, x + 5, top + LANE / 2 + 4);
  }
}

// The first and the least and the most of many numbers, which are too many for one call of Math.min.
function bounded(numbers) {
  return numbers.reduce(([least, most], it) => [Math.min(least, it), Math.max(most, it)], [numbers[0], numbers[0]]);
}
