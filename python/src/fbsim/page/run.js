// The run: its lines, what happens inside blocks after each, and the state of the whole system at each position.
// A position is the number of lines of the range that have been taken: 0 is before the first one.

const EVERY = 1000;

// Opens the data of the page: JSON, compressed, in base64.
async function opened(text) {
  const letters = atob(text.trim());
  const bytes = new Uint8Array(letters.length);
  for (let at = 0; at < letters.length; at++) bytes[at] = letters.charCodeAt(at);
  const stream = new Blob([bytes]).stream().pipeThrough(new DecompressionStream("deflate"));
  return JSON.parse(await new Response(stream).text());
}

class Run {
  constructor(data) {
    Object.assign(this, data);
    const { tick, line, count } = data.columns;
    this.length = line.length;
    this.ticks = new Float64Array(this.length);
    this.firstAct = new Int32Array(this.length + 1);
    this.firstValue = new Int32Array(this.length + 1);
    // The positions at which an instance lost an event, and all of them.
    this.lost = this.instances.map(() => []);
    this.isLost = new Uint8Array(this.length + 1);
    let [now, act, value] = [0, 0, 0];
    for (let at = 0; at < this.length; at++) {
      now += tick[at];
      this.ticks[at] = now;
      value += this.ports[line[at]].slots.length;
      for (const end = act + count[at]; act < end; act++) {
        const it = this.acts[data.columns.act[act]];
        value += it.slots.length;
        if (it.kind === "lost") {
          this.lost[it.instance].push(at + 1);
          this.isLost[at + 1] = 1;
        }
      }
      this.firstAct[at + 1] = act;
      this.firstValue[at + 1] = value;
    }
    this.at = 0;
    this.state = this.wholeState(0);
    this.slotsOf = this.instances.map(() => []);
    this.slots.forEach((it, slot) => this.slotsOf[it.instance].push(slot));
    this.childrenOf = new Map([[-1, new Map()]]);
    this.instances.forEach((it, number) => {
      if (!this.childrenOf.has(it.parent)) this.childrenOf.set(it.parent, new Map());
      this.childrenOf.get(it.parent).set(it.path.split(".").pop(), number);
    });
  }

  // The state before the line of a number that is a multiple of EVERY. A slot that never changes is one value.
  wholeState(number) {
    return this.whole.map((them) => (Array.isArray(them) ? them[number] : them));
  }

  // Goes to a position, and returns the state there.
  stateAt(position) {
    const number = Math.min(Math.floor(position / EVERY), Math.max(0, Math.ceil(this.length / EVERY) - 1));
    if (position < this.at || position - this.at > EVERY) {
      this.state = this.wholeState(number);
      this.at = number * EVERY;
    }
    while (this.at < position) this.eachChange(++this.at, (slot, value) => { this.state[slot] = value; });
    return this.state;
  }

  // Calls with each slot that the line at a position sets, and its value, in order.
  eachChange(position, call) {
    const { act, value } = this.columns;
    let next = this.firstValue[position - 1];
    for (const slot of this.portAt(position).slots) call(slot, value[next++]);
    for (let at = this.firstAct[position - 1]; at < this.firstAct[position]; at++) {
      const it = this.acts[act[at]];
      for (const [slot, set] of it.sets) call(slot, set);
      for (const slot of it.slots) call(slot, value[next++]);
    }
  }

  portAt(position) { return this.ports[this.columns.line[position - 1]]; }

  // The tick of a position: of its line, or of the first line before it.
  tickAt(position) { return this.length ? this.ticks[Math.max(0, position - 1)] : 0; }

  // A value as the trace has it.
  valueText(slot, value) { return this.slots[slot].isTruth ? (value ? "TRUE" : "FALSE") : String(value); }

  // The values of the line at a position, by the names of their variables.
  valuesAt(position) {
    const first = this.firstValue[position - 1];
    const { slots } = this.portAt(position);
    return slots.map((slot, at) => [this.slots[slot].name, this.valueText(slot, this.columns.value[first + at])]);
  }

  // The parts of the line at a position: tick, resource, sign, port and values, all as texts.
  partsAt(position) {
    const port = this.portAt(position);
    const values = this.valuesAt(position).map((it) => it.join("=")).join(" ");
    const place = `${this.instances[port.instance].path}.${port.event}`;
    return [String(this.tickAt(position)), port.resource, port.sign, place, values];
  }

  textAt(position) { return this.partsAt(position).join(" ").trimEnd(); }

  // What happens inside after the line at a position, as `fbsim inspect` writes it.
  insideAt(position) {
    let next = this.firstValue[position - 1] + this.portAt(position).slots.length;
    const found = [];
    for (let at = this.firstAct[position - 1]; at < this.firstAct[position]; at++) {
      const it = this.acts[this.columns.act[at]];
      if (it.kind === "silent") continue;
      const values = it.slots.map((slot) => [this.slots[slot].name, this.valueText(slot, this.columns.value[next++])]);
      const words = values.map((them) => ` ${them.join("=")}`).join("");
      const memory = it.kind === "memory" && this.counted.includes(it.text) ? ` ${values[0][1]}` : "";
      found.push({ ...it, line: it.kind === "algorithm" ? `${it.text}:${words}` : it.text + memory });
    }
    return found;
  }

  // What an instance remembers, as a text: the state of its chart, or what an event block has. Composites have none.
  memoryText(instance, state) {
    const them = this.slotsOf[instance].filter((slot) => ["state", "memory", "count"].includes(this.slots[slot].role));
    if (!them.length) return "";
    const word = this.words[state[them[0]]];
    return this.counted.includes(word) ? `${word} ${state[them[1]]}` : word;
  }

  // The number of lines before a tick.
  before(tick) {
    let [low, high] = [0, this.length];
    while (low < high) {
      const middle = (low + high) >> 1;
      if (this.ticks[middle] < tick) low = middle + 1; else high = middle;
    }
    return low;
  }

  // The first position at a tick, or, if no line has the tick, the last one before it.
  positionOf(tick) {
    const before = this.before(tick);
    return this.ticks[before] === tick ? before + 1 : before;
  }

  // The position of a line of the trace, which counts from 1, or 0 if the range does not have it.
  positionOfLine(line) {
    const position = line - this.linesBefore;
    return position >= 1 && position <= this.length ? position : 0;
  }

  // The positions of the lines that match a pattern.
  search(pattern) {
    const suits = this.ports.map((it) => pattern.isAt(it.resource, it.sign, `${this.instances[it.instance].path}.${it.event}`));
    const found = [];
    for (let at = 1; at <= this.length; at++) {
      if (!suits[this.columns.line[at - 1]]) continue;
      if (!pattern.conditions.length || pattern.isMet(new Map(this.valuesAt(at)))) found.push(at);
    }
    return found;
  }

  // The positions at which a slot gets a value, and these values, with the first one at position 0.
  signal(slot) {
    const found = { positions: [0], values: [this.wholeState(0)[slot]] };
    for (let at = 1; at <= this.length; at++) {
      this.eachChange(at, (it, value) => {
        if (it !== slot || value === found.values[found.values.length - 1]) return;
        found.positions.push(at);
        found.values.push(value);
      });
    }
    return found;
  }
}
