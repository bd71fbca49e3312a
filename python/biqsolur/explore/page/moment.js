// The state at the cursor: the event, the book, the agents, the messages on their way and the rules.

import { clock, el, fee, fill, link, price, span, table, whole } from "./format.js";

const LEVELS = 12;

// What the event was, with its bytes decoded.
export function showEvent(state, people) {
  const what = state.what;
  const ends = `from ${people.name(what.sender)} to ${people.name(what.receiver)}`;
  const way = what.number ? `, message ${whole(what.message)} ${ends}` : "";
  const rows = [];
  if (what.number && !what.put_back) rows.push([`${people.name(what.receiver)} is busy until`, clock(what.busy_until)]);
  if (what.number && what.fee !== "0") rows.push(["fees of both sides", `${fee(Number(what.fee))} dollars`]);
  const open = document.querySelector("#what-body details")?.open;     // as the user left it at the event before
  fill("what-body",
    el("p", { class: "words" }, what.words),
    el("p", { class: "hint" }, clock(what.time) + way),
    state.edits.map(edit => el("p", { class: "edit" }, `Edit of ${edit.branch}: ${editWords(edit, people)}.`)),
    rows.length > 0 && el("dl", { class: "pairs" }, rows.map(([name, value]) => el("div", {}, el("dt", {}, name),
      el("dd", {}, value)))),
    what.fields.length > 0 && el("details", { open }, el("summary", {}, `its ${what.bytes.length / 2} bytes, decoded`),
      bytesTable(what)));
}

function bytesTable(what) {
  return el("div", { class: "scroll", tabindex: 0, role: "region", "aria-label": "Fields of the message" },
    table("Fields of the message", [
      ["offset", "number", field => field.offset], ["field", "", field => field.name],
      ["value", "", field => field.meaning && field.meaning !== field.value ? `${field.value} (${field.meaning})` :
        field.value],
      ["bytes", "mono", field => field.bytes],
    ], what.fields));
}

export function editWords(edit, people) {
  const stock = edit.stock;
  switch (edit.kind) {
    case "tick": return `ticks of ${stock} become ${bandsText(edit.bands)}`;
    case "fee": return `fees of ${stock} become ${fee(edit.add)} to add and ${fee(edit.take)} to take, dollars a share`;
    case "halt": return `${stock} halts`;
    case "resume": return `${stock} trades again`;
    case "latency": return `from group ${edit.from} to group ${edit.to} a message takes ${span(edit.base)} and up ` +
      `to ${span(edit.jitter)} more`;
    case "agent": return `${edit.name} of ${people.name(edit.agent)} becomes ${parameterText(edit.name, edit.value)}`;
    case "silence": return `${people.name(edit.agent)} falls silent`;
    case "inject": return `${edit.words} comes ${span(edit.after)} later`;
    case "series": return `the value of ${stock} moves by ${edit.offset / 10000} dollars`;
    default: return edit.kind;
  }
}

export function bandsText(bands) {
  return bands.map(([from, tick]) => `${price(tick)}${from ? ` from ${price(from)} on` : ""}`).join(", ");
}

export function parameterText(name, value) {
  if (["every", "wobble", "delay", "pause"].includes(name)) return span(value);
  if (["noise", "margin", "half", "step"].includes(name)) return `${price(value) || "0"} dollars`;
  return whole(value);
}

// A ladder of one stock, asks above bids; `choose` is called with a level's order.
export function ladder(state, stock, title, choose, chosen) {
  const book = state.stocks[stock];
  const row = (level, side) => el("tr", { class: side },
    el("td", { class: "number" }, side === "bid" ? shares(level) : ""),
    el("th", { scope: "row", class: "number" }, price(level.price)),
    el("td", { class: "number" }, side === "ask" ? shares(level) : ""),
    el("td", { class: "orders" }, level.orders.map(order => orderMark(order, level, side, choose, chosen)),
      level.count > level.orders.length && ` and ${whole(level.count - level.orders.length)} more`));
  const asks = book.asks.slice(0, LEVELS).reverse().map(level => row(level, "ask"));
  const bids = book.bids.slice(0, LEVELS).map(level => row(level, "bid"));
  const last = el("tr", { class: "last" }, el("td", { colspan: 4 },
    `${book.state === "T" ? "trading" : "HALTED"}, last ${price(book.last) || "none"}, ${whole(book.matched)} ` +
      `shares traded`));
  return el("div", { class: "scroll", tabindex: 0, role: "region", "aria-label": `Book of ${title}` },
    el("table", { class: "ladder" },
      el("caption", {}, title),
      el("thead", {}, el("tr", {}, ["bid shares", "price", "ask shares",
        "orders (agent:shares) in the order in which they trade"].map(text =>
        el("th", { scope: "col" }, text)))),
      el("tbody", {}, more(book.ask_levels), asks.length ? asks : none("no ask"), last,
        bids.length ? bids : none("no bid"),
        more(book.bid_levels))));
}

function none(text) {
  return el("tr", {}, el("td", { colspan: 4, class: "none" }, text));
}

function more(levels) {
  return levels > LEVELS ? el("tr", {}, el("td", { colspan: 4, class: "none" },
    `and ${whole(levels - LEVELS)} levels more`)) : null;
}

function shares(level) {
  return level.hidden ? `${whole(level.shown)} + ${whole(level.hidden)} hidden` : whole(level.shown);
}

function orderMark(order, level, side, choose, chosen) {
  const mine = order.agent === chosen;
  return el("button", {
    type: "button", class: `order${mine ? " mine" : ""}${order.hidden ? " hidden-order" : ""}`,
    "aria-label": `${order.hidden ? "hidden " : ""}order ${order.reference} of agent ${order.agent}, ${order.open} ` +
      `shares`,
    onclick: () => choose(order, level, side),
  }, `${order.hidden ? "◌" : ""}${order.agent}:${whole(order.open)}`);
}

export function queueWords(order, level, side, people) {
  const place = order.before === 0 ? "is the first to trade at its price" :
    `trades after ${whole(order.before)} ${order.before === 1 ? "order" : "orders"} with ${whole(order.ahead)} ` +
      `shares at its price`;
  return `Order ${order.reference} of ${people.name(order.agent)} (${order.token}), ${whole(order.open)} of ` +
    `${whole(order.intended)} shares ` +
    `open at ${price(level.price)}${order.hidden ? ", hidden" : ""}, ${place}.`;
}

// ------------------------------------------------------------ agents, messages, rules

export function showTrader(state, people, symbols) {
  const trader = state.trader;
  if (!trader) return;
  const pairs = [
    ["kind", trader.kind + (trader.silenced ? ", silenced" : "")], ["settled cash", `${trader.cash} dollars`],
    ["settled position", trader.positions.map((number, stock) => `${whole(number)} ${symbols[stock]}`).join(", ")],
    ["cash that it knows of", `${trader.own_cash} dollars`], ["position that it knows of", whole(trader.own_position)],
    ["busy until", clock(trader.own_time)], ["order tokens given", whole(trader.tokens)], ["draws made",
      whole(trader.draws)],
    ["quotes heard", whole(trader.quotes)], ["orders in its own list", whole(trader.orders)],
  ];
  fill("panel-trader",
    el("h3", {}, people.name(trader.agent)),
    el("dl", { class: "pairs" }, pairs.map(([name, value]) => el("div", {}, el("dt", {}, name), el("dd", {}, value)))),
    table("Its parameters", [["parameter", "", pair => pair[0]], ["value", "number", pair => parameterText(...pair)]],
      Object.entries(trader.parameters)),
    table("Its resting orders", [
      ["order", "", order => `${order.reference}${order.hidden ? " (hidden)" : ""}`], ["side", "",
        order => order.side === "B" ? "buy" : "sell"],
      ["open", "number", order => whole(order.open)], ["price", "number", order => price(order.price)],
      ["shares before it", "number", order => whole(order.ahead)],
    ], trader.resting),
    waitingTable("What it waits for, and what it sent", trader.waiting, people));
}

export function showAgents(state, people, symbols, choose) {
  const columns = [
    ["agent", "", row => link(people.name(row.agent), () => choose(row.agent))], ["cash", "number", row => row.cash],
    ...symbols.map((symbol, stock) => [symbol, "number", row => whole(row.positions[stock])]),
    ["orders", "number", row => whole(row.orders)], ["quotes", "number", row => whole(row.quotes)],
    ["", "", row => row.silenced ? "silenced" : ""],
  ];
  fill("panel-agents", table("Settled cash in dollars, positions in shares, orders in its own list, quotes heard",
    columns, state.agents));
}

function waitingTable(caption, rows, people) {
  return table(caption, [
    ["arrives", "mono", row => clock(row.time)], ["number", "number", row => whole(row.message)],
    ["to", "", row => people.name(row.receiver)], ["message", "", row => row.words],
  ], rows);
}

export function showWaiting(state, people) {
  const rest = state.waiting_count - state.waiting.length;
  fill("panel-waiting", waitingTable(`${whole(state.waiting_count)} messages are on their way, the next first` +
    (rest > 0 ? `; the first ${whole(state.waiting.length)} stand here` : ""), state.waiting, people));
}

export function showRules(state) {
  const counts = state.counts;
  const groups = state.rules.base.map((_, group) => group);
  const end = counts.end === "-" ? "goes on" : `has ended (${counts.end})`;
  fill("panel-rules",
    table("Stocks", [
      ["stock", "", stock => stock.symbol], ["state", "", stock => stock.state === "T" ? "trading" : "halted"],
      ["tick, dollars", "", stock => bandsText(stock.bands)], ["fee to add", "number", stock => fee(stock.add)],
      ["fee to take", "number", stock => fee(stock.take)], ["fees so far", "number", stock => stock.fees],
      ["value moved by", "number", stock => (stock.offset / 10000).toString()],
    ], state.stocks),
    table("Latency: from the group of the row to that of the column", [
      ["group", "", group => String(group)],
      ...groups.map(to => [String(to), "number", from =>
        `${span(state.rules.base[from][to])} + up to ${span(state.rules.jitter[from][to])}`]),
    ], groups),
    el("p", {}, `The exchange is in group ${state.rules.exchange.group} and takes ` +
      `${span(state.rules.exchange.delay)} for a message. ` +
      `The run ${end}; ${whole(counts.orders)} orders were accepted, ${whole(counts.matches)} matches made, ` +
      `${whole(counts.ignored_enters + counts.ignored_cancels)} messages ignored, ${whole(counts.dropped)} dropped.`));
}
