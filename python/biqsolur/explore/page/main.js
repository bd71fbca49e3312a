// The explorer's page: what is chosen, how it moves, and what is drawn of it.

import { Gone, Refusal, act, address, ask } from "./api.js";
import { showBranches, showCompared } from "./branches.js";
import { forkForm } from "./fork.js";
import { byId, clock, clockTime, el, fill, whole } from "./format.js";
import { ladder, queueWords, showAgents, showEvent, showRules, showTrader, showWaiting } from "./moment.js";
import { TimeLine, colour } from "./timeline.js";
import { showWhy } from "./why.js";

const page = { study: null, branch: "root", event: 0, stock: 0, agent: 1, shown: [], state: null, asked: 0,
  playing: 0 };
const timeLine = new TimeLine((branch, time) => pickTime(branch, time), failed);
const people = { name: agent => page.study?.agents[agent]?.name ?? `agent ${agent}` };

// ------------------------------------------------------------ telling

let noticeTimer = 0;

function tell(text) {
  const notice = byId("notice");
  notice.textContent = text;
  notice.hidden = !text;
  clearTimeout(noticeTimer);
  if (text) noticeTimer = setTimeout(() => { notice.hidden = true; }, 8000);
}

function failed(error) {
  if (error?.name === "AbortError") return;
  stopPlaying();
  if (error instanceof Gone) {
    alarm(error.message);
  } else if (error instanceof Refusal && error.status === 409 && error.table.kind === "Stale") {
    changedElsewhere().catch(failed);
  } else if (error instanceof Refusal && error.status === 403) {
    alarm("This address is of an explorer that has ended: use the one that the explorer printed last.");
  } else if (error instanceof Refusal) {
    tell(error.message);
  } else {
    alarm("The page failed. Load it again; the study is safe.");
    console.error(error);
  }
}

function changedElsewhere() {
  tell("The study was changed meanwhile, in another tab: this is how it stands now.");
  return openStudy();
}

function alarm(text) {
  byId("alarm").textContent = text;
  byId("alarm").hidden = false;
}

// ------------------------------------------------------------ the run

async function follow() {
  for (let pause = 10; ; pause = Math.min(2 * pause, 120)) {
    const status = await ask("status");
    showRunning(status);
    if (!status.running) {
      if (status.failure) showFailure(status.failure);
      return status;
    }
    await new Promise(resolve => setTimeout(resolve, pause));
  }
}

function showRunning(status) {
  byId("running").hidden = !status.running;
  if (!status.running) return;
  const share = status.share || 0;
  const most = status.events ? `, at most ${whole(status.events)} events` : "";
  const left = Math.max(1, Math.round(status.seconds * (1 - share) / Math.max(share, 0.01)));
  const rest = status.seconds > 1 ? `, about ${left} more` : `, about ${Math.max(1, Math.round(status.guess))} in all`;
  byId("running-text").textContent = `The program runs: ${status.label}${most}. ${status.seconds.toFixed(0)} ` +
    `seconds so far${rest}.`;
  byId("running-share").value = share;
}

function showFailure(failure) {
  const again = page.study ? "The study stands as it did." : "Start the explorer again, or: ";
  alarm(`${failure.error}. ${again}`);
  if (!page.study) byId("alarm").append(" ", el("button", { type: "button", onclick: reopen }, "Run it again"));
}

async function reopen() {
  byId("alarm").hidden = true;
  try {
    await act("reopen");
    await start();
  } catch (error) { failed(error); }
}

async function send(kind, table, errorPlace) {
  if (errorPlace) byId(errorPlace).textContent = "";
  page.changing = true;
  try {
    const before = page.study.branches.map(branch => branch.name);
    const status = await act("change", { ...table, tag: page.study.tag, kind });
    showRunning(status);
    await follow();
    await openStudy();
    const made = page.study.branches.find(branch => !before.includes(branch.name));
    if (made) await goFork(made);
  } catch (error) {
    const place = errorPlace && byId(errorPlace);
    if (place && error instanceof Refusal && error.table.kind !== "Stale") place.textContent = error.message;
    else failed(error);
  } finally {
    page.changing = false;
  }
}

async function goFork(branch) {
  if (!page.shown.includes(branch.name)) page.shown.push(branch.name);
  const event = branch.difference && branch.difference <= branch.count ? branch.difference : Math.min(branch.fork,
    branch.count);
  await go(branch.name, event);
  drawShown();
  await timeLine.open(page.study, page.shown, page.stock);
  byId("compare").scrollIntoView({ block: "nearest" });
}

async function changeVersion(by) {
  page.changing = true;
  try {
    await act("step", { tag: page.study.tag, by });
    await follow();
    await openStudy();
  } catch (error) {
    failed(error);
  } finally {
    page.changing = false;
  }
}

// ------------------------------------------------------------ opening

async function start() {
  const status = await follow();
  if (status.ready) await openStudy(true);
}

async function openStudy(first = false) {
  const study = await ask("study");
  page.study = study;
  byId("main").hidden = false;
  byId("study-name").textContent = study.name;
  document.title = `${study.name} – explorer`;
  if (first) readPlace();
  const names = study.branches.map(branch => branch.name);
  page.shown = page.shown.filter(name => names.includes(name));
  if (!page.shown.length) page.shown = names.slice(0, 3);
  if (!names.includes(page.branch)) page.branch = "root";
  const count = branchTable().count;
  page.event = Math.min(page.event, count);
  page.stock = Math.min(page.stock, study.symbols.length - 1);
  page.agent = Math.min(page.agent, study.agents.length - 1);
  drawTools();
  await Promise.all([go(page.branch, page.event), timeLine.open(study, page.shown, page.stock)]);
}

function branchTable() {
  return page.study.branches.find(branch => branch.name === page.branch);
}

function drawTools() {
  const { study } = page;
  for (const [id, label] of [["undo", study.undo], ["redo", study.redo]]) {
    byId(id).disabled = label === null;
    byId(id).title = label === null ? "" : `${id}: ${label}`;
  }
  fill("stock", study.symbols.map((symbol, stock) => el("option", { value: stock, selected: stock === page.stock },
    symbol)));
  fill("branch", study.branches.map(branch => el("option", { value: branch.name,
    selected: branch.name === page.branch }, branch.name)));
  fill("agent", study.agents.map(agent => el("option", { value: agent.agent, selected: agent.agent === page.agent },
    agent.name)));
  byId("take-study").href = address("take", { tag: study.tag, what: "study" });
  byId("take-bundle").href = address("take", { tag: study.tag, what: "bundle" });
  byId("take-report").href = address("take", { tag: study.tag, what: "report" });
  drawShown();
}

function drawShown() {
  const { study } = page;
  const boxes = study.branches.map((branch, place) => el("label", {},
    el("input", { type: "checkbox", value: branch.name, checked: page.shown.includes(branch.name),
      onchange: changeShown }),
    el("span", { class: "swatch", style: `background:${colour(place)}`, "aria-hidden": "true" }), branch.name));
  fill("shown", el("legend", {}, "Shown"), boxes);
}

function changeShown() {
  page.shown = [...byId("shown").querySelectorAll("input:checked")].map(box => box.value);
  timeLine.open(page.study, page.shown, page.stock).catch(failed);
}

// ------------------------------------------------------------ the cursor

async function go(branch, event) {
  const asked = ++page.asked;
  const words = { tag: page.study.tag, branch, event, agent: page.agent };
  const state = await ask("state", words);
  if (asked !== page.asked) return;
  if (isNewer(state.now)) {
    await changedElsewhere();
    return;
  }
  const changed = branch !== page.branch || !page.state;
  Object.assign(page, { branch, event, state });
  drawMoment();
  writePlace();
  const why = ask("why", { tag: page.study.tag, branch, event }).then(found => {
    if (asked === page.asked) showWhy(found, number => goSafe(page.branch, number));
  });
  const beside = drawLadders(asked);
  if (changed || page.compared !== `${page.study.tag} ${branch}`) {
    page.compared = `${page.study.tag} ${branch}`;
    showCompared(page.study, branch, does).catch(failed);
  }
  await Promise.all([why, beside]).catch(failed);
}

function goSafe(branch, event) {
  stopPlaying();
  return go(branch, event).catch(failed);
}

function drawMoment() {
  const { state, study } = page;
  byId("branch").value = page.branch;
  byId("stock").value = page.stock;
  byId("agent").value = page.agent;
  byId("event").value = page.event;
  byId("clock").value = clock(state.time);
  byId("what-title").textContent = page.event ? `Event ${whole(page.event)} of ${whole(branchTable().count)}` :
    "The opening";
  showEvent(state, people);
  showTrader(state, people, study.symbols);
  showAgents(state, people, study.symbols, chooseAgent);
  showWaiting(state, people);
  showRules(state);
  showBranches(study, page.branch, people, does);
  if (!page.playing) forkForm(context(), send);
  timeLine.moveCursor(state.time);
  byId("take-session").href = address("take", { tag: study.tag, what: "session", branch: page.branch,
    event: page.event });
  const bytes = address("take", { tag: study.tag, what: "state", branch: page.branch, event: page.event });
  fill("provenance", el("span", {}, "What stands here is the program's own answer to "),
    el("code", {}, `./abides rewind ${study.name} ${page.branch}:${page.event}`),
    el("span", {}, ", which is proved to be the state of the full run. The explorer asks it of the study cut to " +
      "this branch and its ancestors, so that it comes sooner: that this gives the same state is tested, and not " +
      "proved. "), el("a", { href: bytes, download: true }, "its bytes"));
}

async function drawLadders(asked) {
  const { state, study } = page;
  const chosen = (order, level, side) => {
    byId("queue").textContent = queueWords(order, level, side, people);
    chooseAgent(order.agent);
  };
  const own = ladder(state, page.stock, `${study.symbols[page.stock]} in ${page.branch}`, chosen, page.agent);
  const parent = branchTable().parent;
  byId("beside").disabled = parent === null;
  if (parent === null || !byId("beside").checked) {
    fill("ladders", own);
    return;
  }
  const at = await ask("at", { tag: study.tag, branch: parent, time: state.time });
  const event = page.event <= branchTable().fork ? page.event : at.event;
  const other = await ask("state", { tag: study.tag, branch: parent, event });
  if (asked !== page.asked) return;
  const title = `${study.symbols[page.stock]} in ${parent}, event ${whole(event)}`;
  fill("ladders", own, ladder(other, page.stock, title, chosen, page.agent));
}

function context() {
  return { study: page.study, state: page.state, stock: page.stock, agent: page.agent };
}

const does = {
  pick: name => {
    const count = page.study.branches.find(branch => branch.name === name).count;
    goSafe(name, Math.min(page.event, count));
  },
  go: (branch, event) => goSafe(branch, Math.min(event, page.study.branches.find(one => one.name === branch).count)),
  send, context,
};

function chooseAgent(agent) {
  page.agent = agent;
  byId("agent").value = agent;
  goSafe(page.branch, page.event).then(() => chooseTab("tab-trader"));
}

async function pickTime(branch, time) {
  stopPlaying();
  try {
    const name = branch ?? page.branch;
    const found = await ask("at", { tag: page.study.tag, branch: name, time });
    await go(name, found.event);
  } catch (error) { failed(error); }
}

function move(by) {
  const event = Math.max(0, Math.min(branchTable().count, page.event + by));
  if (event !== page.event) goSafe(page.branch, event);
}

async function find(kind, way = "on") {
  stopPlaying();
  try {
    const from = kind === "difference" ? 0 : page.event;
    const { branch, agent, stock } = page;
    const found = await ask("find", { tag: page.study.tag, branch, event: from, kind, way, agent, stock });
    await go(page.branch, found.event);
  } catch (error) { failed(error); }
}

function cause() {
  byId("why").querySelector("button.link")?.click();
}

// ------------------------------------------------------------ playing

function stopPlaying() {
  if (!page.playing) return;
  page.playing = 0;
  byId("play").textContent = "Play";
  byId("play").setAttribute("aria-pressed", "false");
  if (page.state) forkForm(context(), send);
}

async function play() {
  if (page.playing) {
    stopPlaying();
    return;
  }
  const mine = page.playing = Date.now();
  byId("play").textContent = "Stop";
  byId("play").setAttribute("aria-pressed", "true");
  let before = performance.now();
  let owed = 0;
  try {
    while (page.playing === mine && page.event < branchTable().count) {
      await new Promise(resolve => setTimeout(resolve, 40));
      const now = performance.now();
      owed += now - before;
      before = now;
      const event = await playedTo(owed);
      if (page.playing !== mine) return;
      if (event <= page.event) continue;
      owed = 0;
      await go(page.branch, event);
    }
    if (page.playing === mine) stopPlaying();
  } catch (error) { failed(error); }
}

// The event to which so many milliseconds of playing lead.
async function playedTo(milliseconds) {
  const speed = byId("speed").value;
  const number = Number(speed.slice(1));
  if (speed[0] === "e") return Math.min(branchTable().count, page.event + Math.floor(milliseconds * number / 1000));
  const time = Math.round(page.state.time + milliseconds * 1e6 * number);
  const found = await ask("at", { tag: page.study.tag, branch: page.branch, time });
  return found.event;
}

// ------------------------------------------------------------ the place as a link

function writePlace() {
  const words = new URLSearchParams({ branch: page.branch, event: page.event, stock: page.stock, agent: page.agent });
  history.replaceState(null, "", `#${words}`);
}

function readPlace() {
  const words = new URLSearchParams(location.hash.slice(1));
  const names = page.study.branches.map(branch => branch.name);
  if (names.includes(words.get("branch"))) page.branch = words.get("branch");
  for (const name of ["event", "stock", "agent"]) {
    const number = Number(words.get(name) ?? page[name]);
    if (Number.isSafeInteger(number) && number >= 0) page[name] = number;
  }
}

// ------------------------------------------------------------ tabs and keys

function chooseTab(id) {
  for (const tab of byId("tabs").querySelectorAll('[role="tab"]')) {
    const chosen = tab.id === id;
    tab.setAttribute("aria-selected", String(chosen));
    tab.tabIndex = chosen ? 0 : -1;
    byId(tab.getAttribute("aria-controls")).hidden = !chosen;
  }
}

function tabKey(event) {
  const tabs = [...byId("tabs").querySelectorAll('[role="tab"]')];
  const by = { ArrowRight: 1, ArrowLeft: -1 }[event.key];
  if (!by) return;
  const next = tabs[(tabs.indexOf(document.activeElement) + by + tabs.length) % tabs.length];
  chooseTab(next.id);
  next.focus();
  event.preventDefault();
  event.stopPropagation();
}

const KEYS = {
  ArrowLeft: event => move(event.shiftKey ? -10 : -1), ArrowRight: event => move(event.shiftKey ? 10 : 1),
  t: () => find("trade"), T: () => find("trade", "back"), a: () => find("agent"), A: () => find("agent", "back"),
  s: () => find("stock"), S: () => find("stock", "back"), d: () => find("difference"),
  p: () => play(), w: () => cause(), f: () => byId("fork-form").querySelector("input")?.focus(),
  u: () => byId("undo").click(), r: () => byId("redo").click(),
  Home: () => goSafe(page.branch, 0), End: () => goSafe(page.branch, branchTable().count),
};

function keyed(event) {
  if (event.ctrlKey || event.metaKey || event.altKey || !page.state) return;
  if (event.target.closest("input, select, textarea, summary, [role=tab]")) return;
  const act = KEYS[event.key];
  if (!act) return;
  event.preventDefault();
  act(event);
}

function listen() {
  document.addEventListener("keydown", keyed);
  byId("tabs").addEventListener("keydown", tabKey);
  for (const tab of byId("tabs").children) tab.addEventListener("click", () => chooseTab(tab.id));
  byId("undo").addEventListener("click", () => changeVersion(-1));
  byId("redo").addEventListener("click", () => changeVersion(1));
  byId("running-stop").addEventListener("click", () => act("stop").catch(failed));
  byId("show-keys").addEventListener("click", () => {
    byId("keys").hidden = !byId("keys").hidden;
    byId("show-keys").setAttribute("aria-expanded", String(!byId("keys").hidden));
  });
  byId("stock").addEventListener("change", event => {
    page.stock = Number(event.target.value);
    goSafe(page.branch, page.event);
    timeLine.open(page.study, page.shown, page.stock).catch(failed);
  });
  byId("branch").addEventListener("change", event => does.pick(event.target.value));
  byId("agent").addEventListener("change", event => chooseAgent(Number(event.target.value)));
  byId("event").addEventListener("change", goToEvent);
  byId("clock").addEventListener("change", goToClock);
  byId("beside").addEventListener("change", () => drawLadders(page.asked).catch(failed));
  byId("zoom-out").addEventListener("click", () => timeLine.show(timeLine.whole));
  byId("zoom-cursor").addEventListener("click", () => timeLine.around(page.state.time));
  byId("play").addEventListener("click", play);
  byId("take-link").addEventListener("click", copyLink);
  for (const one of document.querySelectorAll("[data-go]")) {
    one.addEventListener("click", () => move(one.dataset.go === "on" ? 1 : -1));
  }
  for (const one of document.querySelectorAll("[data-find]")) {
    one.addEventListener("click", () => find(one.dataset.find));
  }
  window.addEventListener("hashchange", () => {
    if (!page.study) return;
    readPlace();
    goSafe(page.branch, Math.min(page.event, branchTable().count));
  });
}

function goToEvent() {
  const number = Number(byId("event").value.replaceAll(",", "").trim());
  if (!Number.isSafeInteger(number) || number < 0 || number > branchTable().count) {
    tell(`Branch ${page.branch} has the events 1 to ${whole(branchTable().count)}, and 0 is its opening.`);
    byId("event").value = page.event;
    return;
  }
  goSafe(page.branch, number);
}

function goToClock() {
  const time = clockTime(byId("clock").value);
  if (time === null) {
    tell("A time is written as 9:31:05 or 9:31:05.25.");
    byId("clock").value = clock(page.state.time);
    return;
  }
  pickTime(null, time);
}

async function copyLink() {
  try {
    await navigator.clipboard.writeText(location.href);
    tell("The link to this place is in the clipboard. It opens here as long as this explorer runs.");
  } catch {
    tell(`The link to this place: ${location.href}`);
  }
}

// Whether a version is one that another tab made. What this page changes itself it opens when its run has ended.
function isNewer(tag) {
  return tag > page.study.tag && !page.changing;
}

// Now and then: whether the explorer is still there, and whether another tab changed the study.
const HEARTBEAT = 3000;
let ended = false;

async function heartbeat() {
  if (ended || !page.study || document.hidden) return;
  try {
    const status = await ask("status");
    if (status.ready && !status.running && isNewer(status.tag)) await changedElsewhere();
  } catch (error) {
    ended = error instanceof Gone;
    failed(error);
  }
}

listen();
start().catch(failed);
setInterval(heartbeat, HEARTBEAT);
