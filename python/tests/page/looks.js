// What tests ask a page in the browser, one call for many steps.

// Steps through the whole run by the button, and returns the line, the row of the list and the inside at each step.
function walk() {
  document.getElementById("first").click();
  const texts = (place) => [...document.querySelectorAll(place)].map((it) => it.textContent);
  const seen = [];
  for (let at = 0; at < page.run.length; at++) {
    document.getElementById("forward").click();
    const words = texts('#lines [aria-selected="true"] span:not(.mark)').join(" ").trimEnd();
    seen.push([document.getElementById("now-line").textContent, words, texts("#inside li:not(.broken)")]);
  }
  return [seen, document.getElementById("forward").disabled];
}

// Goes to positions, and returns what the panel shows there of each block: what it remembers, and its variables.
function look(positions) {
  return positions.map((position) => {
    page.go(position);
    return page.run.instances.map((it, number) => {
      page.open(number, false);
      return [...document.querySelectorAll("#panel .variables tbody tr")].map((row) => {
        const value = row.cells[2].textContent;
        return row.className ? value : `${row.cells[0].textContent}=${value}`;
      }).join(" ");
    });
  });
}

// Steps on to the next line of this text.
function goTo(text) {
  do page.go(page.position + 1); while (page.run.textAt(page.position) !== text && page.position < page.run.length);
}

function focused() {
  const it = document.activeElement;
  return it.getAttribute("aria-label") || it.id || it.textContent;
}

function numbers(colour) { return (colour.match(/[\d.]+/g) ?? [0, 0, 0, 0]).map(Number); }

function luminance(colour) {
  const [r, g, b] = numbers(colour).map((it) => it / 255).map((it) => (it <= 0.03928 ? it / 12.92 : ((it + 0.055) / 1.055) ** 2.4));
  return 0.2126 * r + 0.7152 * g + 0.0722 * b;
}

function isThere(colour) { return colour.startsWith("rgb") && numbers(colour)[3] !== 0; }

// The colour that an element is on: of the last shape below a text of SVG, else of the nearest ground.
function groundOf(it) {
  if (it.matches("text, tspan")) {
    const box = it.getBoundingClientRect();
    const [x, y] = [box.left + box.width / 2, box.top + box.height / 2];
    const below = [...it.closest("svg").querySelectorAll("rect, path")].filter((shape) => {
      const at = shape.getBoundingClientRect();
      const isBefore = shape.compareDocumentPosition(it) & Node.DOCUMENT_POSITION_FOLLOWING;
      const isAround = at.left <= x && at.right >= x && at.top <= y && at.bottom >= y;
      return isBefore && isAround && isThere(getComputedStyle(shape).fill);
    });
    if (below.length) return getComputedStyle(below[below.length - 1]).fill;
  }
  for (let at = it; at; at = at.parentElement) {
    if (isThere(getComputedStyle(at).backgroundColor)) return getComputedStyle(at).backgroundColor;
  }
  return "rgb(255, 255, 255)";
}

// Returns how many texts the page shows, and those whose contrast with their ground is below 4.5 to 1.
function contrast() {
  const shown = [...document.querySelectorAll("body *")].filter((it) => {
    const hasText = [...it.childNodes].some((node) => node.nodeType === Node.TEXT_NODE && node.textContent.trim());
    return hasText && !it.matches("script, noscript, title, option") && it.getClientRects().length;
  });
  const bad = [];
  for (const it of shown) {
    const style = getComputedStyle(it);
    const [a, b] = [luminance(it.closest("svg") ? style.fill : style.color), luminance(groundOf(it))];
    const ratio = (Math.max(a, b) + 0.05) / (Math.min(a, b) + 0.05);
    if (ratio < 4.5) bad.push(`${it.tagName} ${it.className.baseVal ?? it.className} ${it.textContent.slice(0, 30)}: ${ratio.toFixed(2)}`);
  }
  return [shown.length, bad];
}
