// Patterns of lines, as in the rules of `fbsim expect`: RESOURCE SIGN PORT CONDITION..

const NAME = "[A-Z_][A-Z0-9_]*";
const STAR_NAME = `(?:${NAME}|(?:${NAME})?\\*[A-Z0-9_]*)`;
const RESOURCE_FORM = new RegExp(`^(?:\\*|${NAME})$`);
const OPEN_PORT_FORM = new RegExp(`^((?:${NAME}\\.)*)\\*$`);
const PORT_FORM = new RegExp(`^${NAME}(?:\\.${NAME})+$`);
const STAR_PORT_FORM = new RegExp(`^${STAR_NAME}(?:\\.${STAR_NAME})+$`);
const CONDITION_FORM = new RegExp(`^(${NAME})(<>|<=|>=|=|<|>)(TRUE|FALSE|0|-?[1-9][0-9]*|${NAME})$`);
const MOST_NUMBER = 2n ** 64n - 1n;
const COMPARISONS = {
  "=": (a, b) => a === b, "<>": (a, b) => a !== b, "<": (a, b) => a < b,
  "<=": (a, b) => a <= b, ">": (a, b) => a > b, ">=": (a, b) => a >= b,
};

// A value of a text, TRUE, FALSE or a whole number.
function valueOf(text) { return text === "TRUE" ? true : text === "FALSE" ? false : BigInt(text); }

// Whether two values of one kind compare so. Truth values have no order.
function compares(sign, value, other) {
  if (typeof value !== typeof other) return false;
  if (typeof value === "boolean" && sign !== "=" && sign !== "<>") return false;
  return COMPARISONS[sign](value, other);
}

// Whether some number or truth value meets all these conditions, which are on one variable.
function isPossible(conditions) {
  const own = conditions.filter((it) => it.value !== null || it.other === it.name);
  const suits = (value) => own.every((it) => compares(it.sign, value, it.value === null ? value : it.value));
  const numbers = own.map((it) => it.value).filter((it) => typeof it === "bigint");
  const tried = [-MOST_NUMBER, ...numbers, ...numbers.map((it) => it + 1n)];
  return suits(true) || suits(false) || tried.some((it) => it <= MOST_NUMBER && it >= -MOST_NUMBER && suits(it));
}

// Returns a call that says whether a port is one of a pattern, or null if the word is no port.
function portOf(word) {
  const open = OPEN_PORT_FORM.exec(word);
  if (open) return (port) => port.startsWith(open[1]);
  if (PORT_FORM.test(word)) return (port) => port === word;
  if (!STAR_PORT_FORM.test(word)) return null;
  const names = word.split(".");
  const forms = names.map((it, at) => {
    const isAny = it === "*" && (at === 0 || at === names.length - 1);
    return isAny ? "[^.]+(?:\\.[^.]+)*" : it.replace("*", "[^.]*");
  });
  const form = new RegExp(`^${forms.join("\\.")}$`);
  return (port) => form.test(port);
}

class Pattern {
  constructor(text) {
    const words = text.replace(/[a-z]/g, (it) => it.toUpperCase()).split(" ").filter((it) => it);
    if (words.length < 3) throw new Error("a pattern is a resource, a sign, a port and conditions, with blanks between");
    [this.resource, this.sign] = words;
    if (!RESOURCE_FORM.test(this.resource)) throw new Error(`${this.resource} is no resource: a name, or * for any`);
    if (!["<", ">", "*"].includes(this.sign)) throw new Error(`${this.sign} is no sign: >, < or * for both`);
    this.isPort = portOf(words[2]);
    if (!this.isPort) throw new Error(`${words[2]} is no port: two names or more, with a full stop between`);
    this.conditions = words.slice(3).map((it) => this.condition(it));
    for (const name of new Set(this.conditions.map((it) => it.name))) {
      if (!isPossible(this.conditions.filter((it) => it.name === name))) {
        throw new Error(`no value of ${name} meets all conditions on it`);
      }
    }
  }

  condition(word) {
    const parts = CONDITION_FORM.exec(word);
    if (!parts) throw new Error(`${word} is no condition: VAR=value or VAR=VAR with =, <>, <, <=, > or >=, without blanks`);
    const [, name, sign, text] = parts;
    if (/^[A-Z_]/.test(text) && text !== "TRUE" && text !== "FALSE") return { name, sign, value: null, other: text };
    const value = valueOf(text);
    if (typeof value === "boolean" && sign !== "=" && sign !== "<>") {
      throw new Error(`in ${word}, a truth value takes only = and <>`);
    }
    if (typeof value === "bigint" && (value > MOST_NUMBER || value < -MOST_NUMBER)) {
      throw new Error(`in ${word}, the number has more than 64 bits`);
    }
    return { name, sign, value, other: "" };
  }

  // Whether lines of a resource, a sign and a port can match.
  isAt(resource, sign, port) {
    return (this.sign === "*" || this.sign === sign) && (this.resource === "*" || this.resource === resource)
      && this.isPort(port);
  }

  // Whether values, which are texts by the names of their variables, meet all conditions.
  isMet(values) {
    return this.conditions.every((it) => {
      if (!values.has(it.name) || (it.value === null && !values.has(it.other))) return false;
      return compares(it.sign, valueOf(values.get(it.name)), it.value === null ? valueOf(values.get(it.other)) : it.value);
    });
  }
}
