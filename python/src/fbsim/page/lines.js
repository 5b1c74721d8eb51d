// The list of lines: only the rows in view are there, and each says which of how many it is.

const LINE_ROW = 26;

class Lines {
  // `go` takes a position. `marks` has a name of a class for positions of broken rules.
  constructor(run, holder, go, marks) {
    Object.assign(this, { run, holder, go, marks });
    this.hits = new Set();
    this.position = 0;
    this.rows = new Map();
    this.inner = element("div", "rows");
    // (position 0, before the first line, is a row too)
    this.inner.style.height = `${(run.length + 1) * LINE_ROW}px`;
    this.inner.setAttribute("role", "presentation");
    holder.replaceChildren(this.inner);
    holder.addEventListener("scroll", () => this.fill());
    holder.addEventListener("keydown", (event) => this.key(event));
    holder.addEventListener("click", (event) => {
      const row = event.target.closest(".row");
      if (row) this.go(Number(row.dataset.position));
    });
    new ResizeObserver(() => { this.reveal(); this.fill(); }).observe(holder);
  }

  key(event) {
    const page = Math.max(1, Math.floor(this.holder.clientHeight / LINE_ROW) - 1);
    const step = { ArrowDown: 1, ArrowUp: -1, PageDown: page, PageUp: -page }[event.key];
    if (!step) return;
    event.preventDefault();
    event.stopPropagation();
    this.go(this.position + step);
  }

  row(position) {
    const made = element("div", "row");
    made.id = `row-${position}`;
    made.dataset.position = position;
    made.setAttribute("role", "option");
    made.setAttribute("aria-setsize", this.run.length + 1);
    made.setAttribute("aria-posinset", position + 1);
    made.style.top = `${position * LINE_ROW}px`;
    if (position) {
      const [tick, resource, sign, port, values] = this.run.partsAt(position);
      made.append(element("span", "tick", tick), element("span", "resource", resource));
      made.append(element("span", sign === ">" ? "taken" : "emitted", sign), element("span", "port", port), element("span", "values", values));
      if (this.run.isLost[position]) made.append(element("span", "mark lost", "lost"));
      if (this.marks.has(position)) made.append(element("span", "mark broken", "rule"));
    } else {
      made.append(element("span", "tick"), element("span", "before", "before the first line"));
    }
    return made;
  }

  // Puts the rows in view into the list, and removes the others.
  fill() {
    const first = Math.max(0, Math.floor(this.holder.scrollTop / LINE_ROW) - 6);
    const last = Math.min(this.run.length, Math.ceil((this.holder.scrollTop + this.holder.clientHeight) / LINE_ROW) + 6);
    for (const [position, row] of this.rows) {
      if (position >= first && position <= last) continue;
      row.remove();
      this.rows.delete(position);
    }
    for (let position = first; position <= last; position++) {
      if (!this.rows.has(position)) {
        const row = this.row(position);
        this.rows.set(position, row);
        this.inner.append(row);
      }
      const row = this.rows.get(position);
      row.classList.toggle("hit", this.hits.has(position));
      row.setAttribute("aria-selected", String(position === this.position));
    }
    const now = this.rows.get(this.position);
    if (now) this.holder.setAttribute("aria-activedescendant", now.id); else this.holder.removeAttribute("aria-activedescendant");
  }

  // Scrolls so that the row of the position is in view.
  reveal() {
    const [top, height] = [this.position * LINE_ROW, this.holder.clientHeight];
    if (top < this.holder.scrollTop + LINE_ROW || top > this.holder.scrollTop + height - 2 * LINE_ROW) {
      this.holder.scrollTop = top - height / 2;
    }
  }

  show(position) {
    this.position = position;
    this.reveal();
    this.fill();
  }
}
