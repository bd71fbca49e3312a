// Why an event came, and what came of it, as chains that can be clicked through.

import { clock, el, fill, link, whole } from "./format.js";

// The causes of an event: what it was sent during, and of a quote the orders that set it.
export function showWhy(found, go) {
  fill("why", chain(found.causes, go, "Nothing: it stood at the opening."));
  fill("effects", chain(found.effects, go, "Nothing: it sent no message."),
    found.waiting > 0 && el("p", { class: "hint" },
      `${whole(found.waiting)} of the messages that it sent had not come by the end.`));
}

function chain(rows, go, nothing) {
  if (!rows.length) return el("p", { class: "hint" }, nothing);
  return el("ol", { class: "chain" }, rows.map(row => el("li",
    { style: `margin-left:${Math.min(6, row.depth) * 0.7}em` },
    el("span", { class: "link-kind" }, row.link), " ",
    row.event ? link(`${whole(row.event)}`, () => go(row.event), { "aria-label": `Go to event ${row.event}` }) : "",
      " ",
    row.words, " ", row.time ? el("span", { class: "when" }, clock(row.time)) : "")));
}
