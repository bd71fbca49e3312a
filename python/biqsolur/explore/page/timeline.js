// The pictures over time, the tree of branches below them, and the cursor over all.

import { Gone, ask } from "./api.js";
import { byId, clock } from "./format.js";

const MARGIN = { left: 74, right: 14, top: 8, bottom: 34 };
const COLOURS = ["#0b5394", "#b45309", "#0f766e", "#9d174d", "#4d4d4d", "#6d28d9", "#3f6212", "#92400e"];
const DASHES = ["solid", "dash", "dot", "dashdot", "longdash", "longdashdot"];
const ROWS = { mid: [0.5, 1], spread: [0.34, 0.46], volume: [0.19, 0.3], tree: [0, 0.15] };
const STEPS = [1, 2, 5];

let plotly = null;

// Waits for Plotly's script, which is begun only when the first picture's numbers are asked for: it takes the browser
// long to read, and meanwhile the server answers.
function plotlyThere() {
  plotly ??= new Promise((resolve, reject) => {
    const script = document.createElement("script");
    script.src = "page/plotly.js";
    script.onload = resolve;
    script.onerror = () => { plotly = null; reject(new Gone()); };
    document.head.append(script);
  });
  return plotly;
}

export function colour(place) {
  return COLOURS[place % COLOURS.length];
}

export class TimeLine {
  // `pick` is called with a branch (or null) and a time where the user clicks.
  constructor(pick, failed) {
    this.pick = pick;
    this.failed = failed;
    this.plot = byId("plot");
    this.frame = byId("plot-frame");
    this.cursor = byId("cursor");
    this.asked = 0;
    this.data = new Map();
    this.frame.addEventListener("pointerdown", event => { this.down = [event.clientX, event.clientY]; }, true);
    this.frame.addEventListener("pointerup", event => this.released(event), true);
    new ResizeObserver(() => this.resized()).observe(this.frame);
  }

  open(study, shown, stock) {
    this.study = study;
    this.shown = shown;
    this.stock = stock;
    const ends = study.branches.map(branch => branch.end_time);
    this.whole = [study.open, Math.max(study.open + 1, ...ends)];
    if (!this.range || this.range[1] <= this.whole[0] || this.range[0] >= this.whole[1]) this.range = this.whole;
    return this.load();
  }

  async load() {
    const asked = ++this.asked;
    const [begin, end] = this.range.map(Math.round);
    const points = Math.max(200, Math.min(1500, this.frame.clientWidth));
    try {
      const numbers = Promise.all(this.shown.map(branch => ask("timeline", {
        tag: this.study.tag, branch, stock: this.stock, begin: Math.max(0, begin), end: Math.max(end, begin + 1),
          points,
      })));
      const [pictures] = await Promise.all([numbers, plotlyThere()]);
      if (asked !== this.asked) return;
      this.data = new Map(this.shown.map((branch, place) => [branch, pictures[place]]));
      this.draw();
    } catch (error) {
      this.failed(error);
    }
  }

  place(name) {
    return this.study.branches.findIndex(branch => branch.name === name);
  }

  traces() {
    const out = [];
    for (const [name, data] of this.data) {
      const line = { color: colour(this.place(name)), width: 1.5, shape: "hv",
        dash: DASHES[this.place(name) % DASHES.length] };
      const common = { name, legendgroup: name, showlegend: false, hoverinfo: "skip" };
      if (data.value) {
        out.push({ ...common, type: "scatter", mode: "lines", ...data.value, yaxis: "y",
          line: { ...line, color: "#767676", width: 1, dash: "dot" } });
      }
      out.push({ ...common, type: "scatter", mode: "lines", ...data.mid, yaxis: "y", line, connectgaps: false });
      out.push({ ...common, type: "scatter", mode: "markers", x: data.trades.x, y: data.trades.y, yaxis: "y",
        marker: { color: colour(this.place(name)), size: 4, opacity: 0.55,
          symbol: this.place(name) % 2 ? "x-thin-open" : "circle" } });
      out.push({ ...common, type: "scatter", mode: "lines", ...data.spread, yaxis: "y2", line, connectgaps: false });
      out.push({ ...common, type: "scatter", mode: "lines", x: data.volume.x, y: data.volume.y, yaxis: "y3", line });
    }
    return out.concat(this.tree());
  }

  // A row a branch, from its fork on; a line from the parent's row to its own; a triangle where it first differs.
  tree() {
    const out = [];
    for (const [place, branch] of this.study.branches.entries()) {
      const row = -place;
      const begin = branch.parent === null ? this.study.open : branch.fork_time;
      const line = { color: colour(place), width: this.shown.includes(branch.name) ? 4 : 2 };
      if (branch.parent !== null) {
        out.push({ type: "scatter", mode: "lines", x: [begin, begin], y: [-this.place(branch.parent), row], yaxis: "y4",
          line: { ...line, width: 1 }, showlegend: false, hoverinfo: "skip" });
      }
      out.push({ type: "scatter", mode: "lines+markers", x: [begin, branch.end_time], y: [row, row], yaxis: "y4", line,
        marker: { size: 6, color: colour(place) }, showlegend: false, hoverinfo: "skip" });
      if (branch.difference_time !== null) {
        out.push({ type: "scatter", mode: "markers", x: [branch.difference_time], y: [row], yaxis: "y4",
          hoverinfo: "skip",
          marker: { symbol: "triangle-up", size: 12, color: colour(place), line: { color: "#fff", width: 1 } },
            showlegend: false });
      }
    }
    return out;
  }

  height() {
    return 380 + 18 * this.study.branches.length;
  }

  draw() {
    const names = this.study.branches.map(branch => branch.name);
    const axis = (title, row, more = {}) => ({ title: { text: title, font: { size: 12 } }, domain: row,
      fixedrange: true,
      gridcolor: "#e2e2dd", zeroline: false, automargin: false, ...more });
    const times = ticks(this.range);
    const layout = {
      height: this.height(), margin: { l: MARGIN.left, r: MARGIN.right, t: MARGIN.top, b: MARGIN.bottom },
      paper_bgcolor: "#fff", plot_bgcolor: "#fff", font: { family: "inherit", size: 12, color: "#222" },
        dragmode: "zoom",
      xaxis: { range: this.range, tickvals: times.values, ticktext: times.texts, gridcolor: "#e2e2dd", zeroline: false,
        anchor: "free",
        position: 0 },
      yaxis: axis("dollars", ROWS.mid, { tickformat: ".4~f" }),
      yaxis2: axis("spread", ROWS.spread, { rangemode: "tozero", nticks: 4 }),
      yaxis3: axis("shares", ROWS.volume, { rangemode: "tozero", nticks: 4 }),
      yaxis4: axis("", ROWS.tree, { tickvals: names.map((_, place) => -place), ticktext: names.map(short),
        range: [-names.length + 0.4, 0.6],
        showgrid: false }),
    };
    globalThis.Plotly.react(this.plot, this.traces(), layout, { displayModeBar: false, responsive: false,
      doubleClick: false });
    if (!this.listens) {
      this.plot.on("plotly_relayout", change => this.zoomed(change));
      this.plot.on("plotly_doubleclick", () => { this.show(this.whole); return false; });
      this.listens = true;
    }
    this.drawn = true;
    this.moveCursor(this.time);
  }

  zoomed(change) {
    const range = [change["xaxis.range[0]"], change["xaxis.range[1]"]];
    if (range[0] !== undefined && (range[0] !== this.range[0] || range[1] !== this.range[1])) this.show(range);
  }

  show(range) {
    const [first, last] = this.whole;
    const width = Math.min(Math.max(range[1] - range[0], 10), last - first);
    const begin = Math.min(Math.max(range[0], first), last - width);
    this.range = [begin, begin + width];
    return this.load();
  }

  around(time) {
    const width = (this.whole[1] - this.whole[0]) / 50;
    return this.show([time - width / 2, time + width / 2]);
  }

  inner() {
    return this.frame.clientWidth - MARGIN.left - MARGIN.right;
  }

  moveCursor(time) {
    this.time = time;
    if (!this.drawn || time === undefined) return;
    const share = (time - this.range[0]) / (this.range[1] - this.range[0]);
    this.cursor.hidden = share < 0 || share > 1;
    this.cursor.style.left = `${MARGIN.left + share * this.inner()}px`;
    this.cursor.style.height = `${this.height() - MARGIN.top - MARGIN.bottom}px`;
    this.cursor.dataset.time = clock(time);
  }

  released(event) {
    if (!this.down || !this.drawn) return;
    const moved = Math.abs(event.clientX - this.down[0]) + Math.abs(event.clientY - this.down[1]);
    this.down = null;
    if (moved > 4) return;
    const box = this.frame.getBoundingClientRect();
    const share = (event.clientX - box.left - MARGIN.left) / this.inner();
    if (share < 0 || share > 1) return;
    const height = this.height() - MARGIN.top - MARGIN.bottom;
    const up = 1 - (event.clientY - box.top - MARGIN.top) / height;
    const branch = up >= 0 && up <= ROWS.tree[1] ? this.study.branches[treeRow(up,
      this.study.branches.length)] : undefined;
    this.pick(branch ? branch.name : null, Math.round(this.range[0] + share * (this.range[1] - this.range[0])));
  }

  resized() {
    if (!this.drawn) return;
    globalThis.Plotly.relayout(this.plot, { width: this.frame.clientWidth }).then(() => this.moveCursor(this.time));
  }
}

// The number of the branch whose row lies at a height, 0 at the bottom of the picture.
function treeRow(up, count) {
  const [low, high] = [-count + 0.4, 0.6];
  return -Math.round(low + (up / ROWS.tree[1]) * (high - low)) || 0;
}

function short(name) {
  return name.length > 10 ? `${name.slice(0, 9)}…` : name;
}

// About seven round times in a range, with as many decimals as tell them apart.
export function ticks([begin, end]) {
  const wish = (end - begin) / 7;
  const step = roundStep(wish);
  const decimals = Math.max(0, Math.min(9, 9 - Math.floor(Math.log10(step) + 1e-9)));
  const values = [];
  for (let at = Math.ceil(begin / step) * step; at <= end; at += step) values.push(at);
  return { values, texts: values.map(value => clock(Math.round(value), decimals)) };
}

function roundStep(wish) {
  if (wish > 1e9) {
    const seconds = [1, 2, 5, 10, 15, 30, 60, 120, 300, 600, 900, 1800, 3600, 7200, 10800, 21600];
    return (seconds.find(step => step * 1e9 >= wish) || 43200) * 1e9;
  }
  const size = 10 ** Math.floor(Math.log10(Math.max(1, wish)));
  return (STEPS.find(step => step * size >= wish) || 10) * size;
}
