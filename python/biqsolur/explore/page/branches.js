// The tree of branches as a list, with what can be done to each, and a branch laid over its parent.

import { ask } from "./api.js";
import { changeForm } from "./fork.js";
import { clock, el, fill, link, table, whole } from "./format.js";
import { editWords } from "./moment.js";
import { colour } from "./timeline.js";

const FIRST_MEASURES = 12;

// `does` has: pick(name), send(kind, table, place of an error), context(), go(branch, event).
export function showBranches(study, chosen, people, does) {
  fill("branch-list", el("ul", { class: "tree" }, study.branches.map((branch, place) => item(study, branch, place,
    chosen, people, does))));
}

function depth(study, branch) {
  return branch.parent === null ? 0 : 1 + depth(study, study.branches.find(one => one.name === branch.parent));
}

function item(study, branch, place, chosen, people, does) {
  const where = branch.parent === null ? `${whole(branch.count)} events` :
    `from ${branch.parent} after event ${whole(branch.fork)}, ${whole(branch.count)} events, ` +
    (branch.difference ? `differs first in event ${whole(branch.difference)}` : "differs nowhere");
  const box = el("div", { class: "branch-box" });
  const tools = branch.parent === null ? [] : [
    button("Rename", `Rename ${branch.name}`, () => renameForm(branch, box, does)),
    button("Edits", `Change the edits of ${branch.name}`, () => box.replaceChildren(
      changeForm(does.context(), branch, does.send, () => box.replaceChildren()))),
    button("Remove", `Remove ${branch.name}`, () => does.send("remove", { branch: branch.name })),
  ];
  return el("li", { style: `margin-left:${depth(study, branch) * 1.2}em`,
    class: branch.name === chosen ? "chosen" : "" },
    el("span", { class: "swatch", style: `background:${colour(place)}`, "aria-hidden": "true" }),
    link(branch.name, () => does.pick(branch.name), { "aria-current": branch.name === chosen ? "true" : null }), " ",
    el("span", { class: "where" }, where), " ", tools,
    branch.edits.length > 0 && el("ul", { class: "edits" }, branch.edits.map(edit => el("li", {}, editWords(edit,
      people)))), box);
}

function button(text, label, act) {
  return el("button", { type: "button", class: "quiet", "aria-label": label, onclick: act }, text);
}

function renameForm(branch, box, does) {
  const name = el("input", { value: branch.name, maxlength: 32, "aria-label": `New name of ${branch.name}`,
    autocomplete: "off" });
  const form = el("form", { class: "change-form" }, name, el("button", { type: "submit" }, "Rename"),
    button("Leave it", "Leave the name", () => box.replaceChildren()), el("p", { class: "error", id: "change-error",
      role: "alert" }));
  form.onsubmit = event => {
    event.preventDefault();
    does.send("rename", { branch: branch.name, name: name.value.trim() }, "change-error");
  };
  box.replaceChildren(form);
  name.focus();
}

// The first difference in words, and the measures of both side by side.
export async function showCompared(study, chosen, does) {
  const branch = study.branches.find(one => one.name === chosen);
  if (branch.parent === null) {
    fill("compare", el("p", { class: "hint" }, "A branch that is chosen is laid beside its parent here."));
    return;
  }
  fill("compare", el("p", { class: "hint" }, `${branch.name} is being laid beside ${branch.parent} …`));
  const found = await ask("compare", { tag: study.tag, branch: chosen });
  const first = found.difference === 0 ? el("p", {}, `${chosen} differs from ${branch.parent} in no event.`) :
    el("div", {},
      el("p", {}, "The first difference is ", link(`event ${whole(found.difference)}`, () => does.go(chosen,
        found.difference)),
        `, ${clock(found.time)}:`),
      el("dl", { class: "differs" },
        [[chosen, found.ours], [branch.parent, found.theirs]].map(([name, words]) =>
          el("div", {}, el("dt", {}, name), el("dd", {}, words || "has no such event")))));
  fill("compare", el("h3", {}, `${chosen} beside ${branch.parent}`), first,
    measures("Measures of the events behind the fork", branch, found.measures.slice(0, FIRST_MEASURES)),
    found.measures.length > FIRST_MEASURES && el("details", {}, el("summary", {},
      `${found.measures.length - FIRST_MEASURES} measures more`),
      measures("More measures of the events behind the fork", branch, found.measures.slice(FIRST_MEASURES))));
}

function measures(caption, branch, rows) {
  const difference = row => row.ours === null || row.theirs === null ? null : row.ours - row.theirs;
  return el("div", { class: "scroll", tabindex: 0, role: "region", "aria-label": caption }, table(caption, [
    ["measure", "", row => row.name], [branch.parent, "number", row => numberText(row.theirs)],
    [branch.name, "number", row => numberText(row.ours)], ["difference", "number", row => numberText(difference(row))],
  ], rows));
}

function numberText(number) {
  if (number === null || number === undefined) return "–";
  return Number.isInteger(number) ? whole(number) : number.toLocaleString("en-US", { maximumSignificantDigits: 6 });
}
