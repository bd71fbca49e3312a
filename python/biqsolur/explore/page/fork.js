// The form that forks here, and that changes the edits of a branch: a part for each of the nine edits.

import { byId, clock, el, fee, fill, priceInput, spanInput, whole } from "./format.js";

const KINDS = [
  ["tick", "tick: the price steps of a stock"], ["fee", "fee: what a trade costs each side"], ["halt", "halt a stock"],
  ["resume", "resume a stock"], ["latency", "latency between two groups"],
  ["agent", "agent: one parameter of a trader"], ["silence", "silence a trader"],
  ["inject", "inject an order or a cancel of a trader"], ["series", "series: move a stock's value"],
];
const MOST_EDITS = 16;
const SPANS = ["every", "wobble", "delay", "pause"];
const PRICES = ["noise", "margin", "half", "step"];
const FIXED = ["short", "long"];

let count = 0;

function field(text, control, hint) {
  const id = `field-${++count}`;
  control.id = id;
  const parts = [el("label", { for: id }, text), control];
  if (hint) {
    control.setAttribute("aria-describedby", `${id}-hint`);
    parts.push(el("span", { class: "hint", id: `${id}-hint` }, hint));
  }
  return el("div", { class: "field" }, parts);
}

function input(name, value, properties = {}) {
  return el("input", { name, value, type: "text", autocomplete: "off", spellcheck: "false", ...properties });
}

function select(name, options, value) {
  return el("select", { name }, options.map(([key, text]) => el("option", { value: key,
    selected: String(key) === String(value) }, text)));
}

// What the fields of one edit begin with: what holds at the cursor, or the edit that is changed.
function fieldsOf(kind, context, edit, again) {
  const { study, state, stock, agent } = context;
  const symbol = edit.stock || study.symbols[stock];
  const rule = state.stocks.find(one => one.symbol === symbol) || state.stocks[0];
  const symbols = study.symbols.map(one => [one, one]);
  const traders = study.agents.slice(1).map(one => [one.agent, one.name]);
  const trader = edit.agent || agent || 1;
  const groups = Array.from({ length: study.groups }, (_, group) => [group, `group ${group}`]);
  const stockField = field("stock", select("stock", symbols, symbol));
  const traderField = field("trader", select("agent", traders, trader));
  switch (kind) {
    case "tick": return [stockField, field("ticks", input("bands", (edit.bands || rule.bands).map(([from, tick]) =>
      `${priceInput(from)}: ${priceInput(tick)}`).join(", ")),
        "from a price: the tick from it on, in dollars; the first from 0.00")];
    case "fee": return [stockField, field("fee to add", input("add", fee(edit.add ?? rule.add)),
      "dollars a share; below 0 it is paid out"),
      field("fee to take", input("take", fee(edit.take ?? rule.take)), "dollars a share")];
    case "halt": case "resume": return [stockField];
    case "latency": {
      const [from, to] = [edit.from ?? 0, edit.to ?? 0];
      return [field("from", select("from", groups, from)), field("to", select("to", groups, to)),
        field("least time under way", input("base", spanInput(edit.base ?? state.rules.base[from][to])),
          "such as 50us or 2ms"),
        field("and at most so much more", input("jitter", spanInput(edit.jitter ?? state.rules.jitter[from][to])))];
    }
    case "agent": {
      const parameters = state.rules.agents[trader] || {};
      const names = Object.keys(parameters).filter(name => !FIXED.includes(name));
      const name = names.includes(edit.name) ? edit.name : names[0];
      const traderControl = traderField.querySelector("select");
      traderControl.addEventListener("change", () => again({ kind, agent: Number(traderControl.value), name }));
      const nameControl = select("name", names.map(one => [one, one]), name);
      nameControl.addEventListener("change", () => again({ kind, agent: trader, name: nameControl.value }));
      const value = edit.value ?? parameters[name];
      return [traderField, field("parameter", nameControl), field("value", input("value", parameterInput(name, value)),
        SPANS.includes(name) ? "a time such as 250ms" : PRICES.includes(name) ? "dollars" : "a whole number")];
    }
    case "silence": return [traderField];
    case "inject": return injectFields(edit, symbols, symbol, traderField, rule);
    case "series": return [stockField, field("move its value by", input("offset", priceInput(edit.offset ?? 0)),
      "dollars, down with a minus")];
    default: return [];
  }
}

function parameterInput(name, value) {
  return SPANS.includes(name) ? spanInput(value) : PRICES.includes(name) ? priceInput(value) : String(value);
}

function injectFields(edit, symbols, symbol, traderField, rule) {
  const order = edit.order || {};
  const best = rule.asks[0] || rule.bids[0];
  if (edit.message) {
    return [traderField, field("so much later", input("after", spanInput(edit.after ?? 0))),
      field("message", input("message", edit.message), "an OUCH message in hexadecimal digits")];
  }
  return [traderField, field("so much later", input("after", spanInput(edit.after ?? 0)),
    "such as 0ns or 5ms; it has no latency"),
    field("what", select("what", [["enter", "a new order"], ["cancel", "a cancel"]], order.what)),
    field("token", input("token", order.token || "MINE1"), "1 to 14 letters and digits; of a cancel the order's"),
    field("side", select("side", [["B", "buy"], ["S", "sell"]], order.side)),
    field("shares", input("shares", order.shares || "100"), "of a cancel those that are to stay"),
    field("stock", select("symbol", symbols, symbol)),
    field("price", input("price", order.price || priceInput(best ? best.price : rule.last)), "dollars"),
    field("lasts", select("time_in_force", [["99999", "the day"], ["0", "this instant alone"]], order.time_in_force)),
    field("display", select("display", [["Y", "shown"], ["N", "hidden (studies of version 2)"]], order.display))];
}

// The edit that a part of the form says.
function editOf(part) {
  const value = name => part.querySelector(`[name="${name}"]`)?.value;
  const kind = value("kind");
  switch (kind) {
    case "tick": return { kind, stock: value("stock"),
      bands: value("bands").split(",").map(pair => pair.split(":").map(text => text.trim())) };
    case "fee": return { kind, stock: value("stock"), add: value("add").trim(), take: value("take").trim() };
    case "halt": case "resume": return { kind, stock: value("stock") };
    case "latency": return { kind, from: Number(value("from")), to: Number(value("to")), base: value("base").trim(),
      jitter: value("jitter").trim() };
    case "agent": {
      const text = value("value").trim();
      const timed = SPANS.includes(value("name")) || PRICES.includes(value("name"));
      return { kind, agent: Number(value("agent")), name: value("name"),
        value: timed || !/^-?\d+$/.test(text) ? text : Number(text) };
    }
    case "silence": return { kind, agent: Number(value("agent")) };
    case "inject": {
      const common = { kind, agent: Number(value("agent")), after: value("after").trim() };
      if (value("message") !== undefined) return { ...common, message: value("message").trim() };
      const order = Object.fromEntries(["what", "token", "side", "shares", "symbol", "price", "time_in_force",
        "display"].map(name =>
        [name, value(name).trim()]));
      return { ...common, order };
    }
    case "series": return { kind, stock: value("stock"), offset: value("offset").trim() };
    default: return { kind };
  }
}

// A part of the form for one edit.
function editPart(context, edit) {
  const part = el("fieldset", { class: "edit-part" });
  const draw = current => {
    const kind = select("kind", KINDS, current.kind);
    kind.addEventListener("change", () => { draw({ kind: kind.value }); part.querySelector('[name="kind"]').focus(); });
    part.replaceChildren(el("legend", {}, "Edit"), field("what changes", kind),
      ...fieldsOf(current.kind, context, current, draw),
      el("button", { type: "button", class: "quiet", onclick: () => part.remove() }, "Leave this edit out"));
  };
  draw(edit);
  return part;
}

function parentFor(study, branch, event) {
  let found = study.branches.find(one => one.name === branch);
  while (found.parent !== null && event < found.fork) found = study.branches.find(one => one.name === found.parent);
  return found;
}

function freeName(study, wish) {
  const names = study.branches.map(branch => branch.name);
  for (let number = 1; ; number++) {
    const name = number === 1 ? wish : `${wish}${number}`;
    if (!names.includes(name)) return name;
  }
}

// Draws the form for a fork at the cursor. `send` is called with what is to be asked.
export function forkForm(context, send) {
  const { study, state } = context;
  const parent = parentFor(study, state.branch, state.event);
  const siblings = study.branches.filter(branch => branch.parent === parent.name);
  const timed = siblings.some(branch => branch.when !== null);
  const parts = el("div", {}, editPart(context, { kind: "tick" }));
  const name = input("name", freeName(study, "fork"), { maxlength: 32, required: true });
  const stop = select("stop", [["at", `after event ${whole(state.event)}`], ["when",
    `at ${clock(state.time)} (studies of version 2)`]],
    timed ? "when" : "at");
  fill("fork-form",
    el("p", {}, `A new branch of ${parent.name}. Everything before it is the same, to the last byte.`),
    field("name", name, "small letters, digits, _ and -"), field("leaves", stop), parts, addButton(parts, context),
    el("p", { class: "error", id: "fork-error", role: "alert" }),
    el("button", { type: "submit", class: "strong" }, "Fork and run"));
  byId("fork-form").onsubmit = event => {
    event.preventDefault();
    const where = stop.value === "at" ? { at: state.event } : { when: state.time };
    send("fork", { name: name.value.trim(), parent: parent.name, ...where, edits: [...parts.children].map(editOf) },
      "fork-error");
  };
}

function addButton(parts, context) {
  return el("button", { type: "button", class: "quiet", onclick: () => {
    if (parts.children.length >= MOST_EDITS) return;
    parts.append(editPart(context, { kind: "tick" }));
    parts.lastChild.querySelector("select").focus();
  } }, "Add an edit");
}

// A form for the edits of a branch that is there.
export function changeForm(context, branch, send, done) {
  const parts = el("div", {}, branch.edits.map(edit => editPart(context, edit)));
  const form = el("form", { class: "change-form" }, parts, addButton(parts, context),
    el("p", { class: "error", id: "change-error", role: "alert" }),
    el("button", { type: "submit", class: "strong" }, "Change and run"),
    el("button", { type: "button", class: "quiet", onclick: done }, "Leave it"));
  form.onsubmit = event => {
    event.preventDefault();
    send("change", { branch: branch.name, edits: [...parts.children].map(editOf) }, "change-error");
  };
  return form;
}

