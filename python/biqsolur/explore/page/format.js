// Texts and elements.

const SECOND = 1e9;

// A time of day (ns) with as many decimals of a second as it needs.
export function clock(time, decimals = 9) {
  const seconds = Math.floor(time / SECOND);
  const rest = String(time - seconds * SECOND).padStart(9, "0").slice(0, decimals);
  const two = number => String(number).padStart(2, "0");
  const part = decimals ? `.${rest}` : "";
  return `${two(Math.floor(seconds / 3600))}:${two(Math.floor(seconds / 60) % 60)}:${two(seconds % 60)}${part}`;
}

// The time of day (ns) that a text such as 9:31:05.25 says, or null.
export function clockTime(text) {
  const match = /^\s*(\d{1,2}):(\d{2})(?::(\d{2})(?:\.(\d{1,9}))?)?\s*$/.exec(text.replaceAll(" ", ""));
  if (!match || Number(match[2]) > 59 || Number(match[3] || 0) > 59 || Number(match[1]) > 23) return null;
  const seconds = Number(match[1]) * 3600 + Number(match[2]) * 60 + Number(match[3] || 0);
  return seconds * SECOND + Number((match[4] || "").padEnd(9, "0"));
}

// A length of time (ns) in the unit that suits it.
export function span(time) {
  for (const [unit, size] of [["s", 1e9], ["ms", 1e6], ["µs", 1e3]]) {
    if (Math.abs(time) >= size) return `${whole(Math.floor(time / size))}${fraction(time % size, size)} ${unit}`;
  }
  return `${time} ns`;
}

function fraction(rest, size) {
  const digits = String(Math.abs(rest)).padStart(String(size).length - 1, "0").replace(/0+$/, "");
  return digits ? `.${digits}` : "";
}

// A length of time (ns) as a form's field has it.
export function spanInput(time) {
  for (const [unit, size] of [["s", 1e9], ["ms", 1e6], ["us", 1e3]]) {
    if (time && time % size === 0) return `${time / size}${unit}`;
  }
  return `${time}ns`;
}

export function whole(number) {
  return Number(number).toLocaleString("en-US");
}

// A price with four implied decimals in dollars.
export function price(number) {
  if (!number) return "";
  const text = (number / 10000).toFixed(4);
  return text.endsWith("00") ? text.slice(0, -2) : text;
}

export function priceInput(number) {
  const sign = number < 0 ? "-" : "";
  const text = (Math.abs(number) / 10000).toFixed(4).replace(/0{1,2}$/, "");
  return sign + text;
}

// Millionths of a dollar a share, in dollars.
export function fee(number) {
  const text = (number / 1e6).toFixed(6).replace(/0+$/, "");
  return text.length - text.indexOf(".") - 1 < 2 ? (number / 1e6).toFixed(2) : text;
}

// An element: el("td", {class: "number"}, "text", child ...). Properties that begin with "on" are listeners.
export function el(name, properties = {}, ...children) {
  const out = document.createElement(name);
  for (const [key, value] of Object.entries(properties)) {
    if (value === undefined || value === null || value === false) continue;
    if (key.startsWith("on")) out.addEventListener(key.slice(2), value);
    else if (value === true) out.setAttribute(key, "");
    else out.setAttribute(key, value);
  }
  out.append(...children.flat().filter(child => child !== null && child !== undefined && child !== false));
  return out;
}

export function byId(id) {
  return document.getElementById(id);
}

export function fill(id, ...children) {
  byId(id).replaceChildren(...children.flat().filter(child => child !== null && child !== undefined &&
    child !== false));
}

// A table of rows with a heading of each column: [heading, "number" or "", cell of a row].
export function table(caption, columns, rows, rowProperties = () => ({})) {
  return el("table", {},
    el("caption", {}, caption),
    el("thead", {}, el("tr", {}, columns.map(([heading, kind]) => el("th", { scope: "col", class: kind }, heading)))),
    el("tbody", {}, rows.map(row => el("tr", rowProperties(row),
      columns.map(([, kind, cell]) => el("td", { class: kind }, cell(row)))))));
}

export function link(text, go, properties = {}) {
  return el("button", { type: "button", class: "link", onclick: go, ...properties }, text);
}
