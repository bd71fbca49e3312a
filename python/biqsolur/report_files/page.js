"use strict";
// Draws the pictures of the report from the data in the page. Times are nanoseconds past midnight, prices have four
// implied decimals (of a mid price twice that price is given), fees are millionths of a dollar. All of them are whole
// numbers, and a series gives each time as the step from the one before it.

const data = JSON.parse(document.getElementById("data").textContent);
const byId = (name) => document.getElementById(name);
const branches = data.branches;
const isControl = (number) => branches[number].parent !== null && !branches[number].difference;
const numberOf = new Map(branches.map((branch, number) => [branch.name, number]));
const safe = (text) => text.replace(/&/g, "&amp;").replace(/</g, "&lt;").replace(/>/g, "&gt;");

// Colours that also the colour-blind tell apart. The root is wide and pale, so that a line over it does not hide it.
const colours = ["#0072b2", "#d55e00", "#009e73", "#cc79a7", "#e69f00", "#56b4e9", "#7a5195"];
const dashes = ["solid", "5px,3px", "2px,2px", "8px,3px,2px,3px"];
const symbols = ["circle", "diamond", "square", "triangle-up", "cross", "x", "star"];

function styleOf(number) {
    if (number === 0) return { color: "#8b949e", width: 3.5, dash: "solid" };
    const place = number - 1;
    if (isControl(number)) return { color: colours[place % colours.length], width: 2.2, dash: "1px,7px" };     // its parent is seen
    return { color: colours[place % colours.length], width: 1.8, dash: dashes[Math.floor(place / colours.length) % dashes.length] };
}

// ---- time of day

const second = 1e9;
const span = Math.max(1, data.end - data.begin);
const isFine = span < 5e6;                         // below five milliseconds an axis of dates is too coarse
const pad = (value, size) => String(value).padStart(size, "0");

function timeText(time, decimals = 9) {
    const seconds = Math.floor(time / second);
    const part = pad(Math.round(time - seconds * second), 9).slice(0, decimals);
    return `${pad(Math.floor(seconds / 3600), 2)}:${pad(Math.floor(seconds / 60) % 60, 2)}:${pad(seconds % 60, 2)}${decimals ? "." + part : ""}`;
}

// As short as it is exact.
function shortTime(time) {
    return timeText(time).replace(/\.?0+$/, "");
}

function timeOf(text) {
    const found = /^\s*(\d{1,2}):(\d{2})(?::(\d{2})(?:\.(\d{1,9}))?)?\s*$/.exec(text);
    if (!found) return null;
    const [, hours, minutes, seconds, part] = found;
    return (Number(hours) * 3600 + Number(minutes) * 60 + Number(seconds || 0)) * second + Number((part || "").padEnd(9, "0"));
}

const toAxis = (time) => isFine ? time - data.begin : time / 1e6;      // nanoseconds, or milliseconds of a date
function fromAxis(value) {
    if (typeof value === "string") value = Date.parse(value.replace(" ", "T") + "Z");
    return isFine ? Number(value) + data.begin : Number(value) * 1e6;
}
const shown = { from: data.begin, to: data.end };

// ---- series

function timesOf(steps) {
    let time = 0;
    return steps.map((step) => (time += step));
}

// A branch's series from the opening on: where it was its parent still, it is the parent's.
function wholeSeries(number, stock, name) {
    const branch = branches[number];
    const [steps, ...columns] = branch.stocks[stock][name];
    const own = { times: timesOf(steps), columns: columns.flat(name === "depth" ? 1 : 0) };
    if (name !== "depth") own.columns = columns;
    if (branch.parent === null) return own;
    const before = wholeSeries(numberOf.get(branch.parent), stock, name);
    const count = before.times.findIndex((time) => time >= branch.fork);
    const kept = count < 0 ? before.times.length : count;
    return {
        times: before.times.slice(0, kept).concat(own.times),
        columns: own.columns.map((column, place) => before.columns[place].slice(0, kept).concat(column)),
    };
}

function ownSeries(number, stock, name) {
    const [steps, ...columns] = branches[number].stocks[stock][name];
    return { times: timesOf(steps), columns: name === "depth" ? columns.flat(1) : columns };
}

const memory = new Map();
function seriesOf(number, stock, name, whole) {
    const key = [number, stock, name, whole].join();
    if (!memory.has(key)) {
        const series = whole ? wholeSeries(number, stock, name) : ownSeries(number, stock, name);
        if (series.times.length) {                                      // a step holds until the end
            series.times.push(Math.max(branches[number].end, series.times[series.times.length - 1]));
            series.columns = series.columns.map((column) => column.concat([column[column.length - 1]]));
        }
        memory.set(key, series);
    }
    return memory.get(key);
}

// ---- what is switched on

const on = branches.map((_, number) => number < 12);
const stockNow = () => Number(byId("stock").value);
const first = () => Number(byId("first").value);
const second_ = () => Number(byId("second").value);
function drawn() {
    if (byId("pair").checked) return [...new Set([first(), second_()].filter((number) => number >= 0))];
    return branches.map((_, number) => number).filter((number) => on[number]);
}

// The fundamental value of a branch, from its fork on its own and before it that of its parent; whose it is throughout, where
// it has none of its own, is in `of`.
function valueSeries(number, stock) {
    const branch = branches[number], own = branch.stocks[stock].value;
    if (!own) return null;
    if (!own.length) return valueSeries(numberOf.get(branch.parent), stock);
    const series = { of: number, times: timesOf(own[0]), values: own[1] };
    if (branch.parent === null) return series;
    const before = valueSeries(numberOf.get(branch.parent), stock);
    const count = before.times.findIndex((time) => time >= branch.fork);
    const kept = count < 0 ? before.times.length : count;
    return { of: number, times: before.times.slice(0, kept).concat(series.times), values: before.values.slice(0, kept).concat(series.values) };
}

// ---- figures

const units = {
    mid: { title: "Mid price, dollars", of: (value) => value / 20000, hover: "%{y:.5f} dollars", format: ".2f" },
    spread: { title: "Spread, cents", of: (value) => value / 100, hover: "%{y:.2f} cents", format: "" },
    volume: { title: "Shares traded", of: (value) => value, hover: "%{y:,} shares", format: ",d" },
    fees: { title: "Fees, dollars", of: (value) => value / 1e6, hover: "%{y:,.6f} dollars", format: "" },
};
const config = { displaylogo: false, responsive: true, modeBarButtonsToRemove: ["select2d", "lasso2d", "autoScale2d"],
    toImageButtonOptions: { format: "svg" } };
const font = { family: "DejaVu Sans, Verdana, sans-serif", size: 13, color: "#1b1f24" };
const grid = { gridcolor: "#e6e9ed", linecolor: "#8b949e", zerolinecolor: "#8b949e", ticks: "outside", tickcolor: "#8b949e", automargin: true };

function timeAxis() {
    const range = [toAxis(shown.from), toAxis(shown.to)];
    if (isFine) return { ...grid, range, title: { text: `Nanoseconds after ${timeText(data.begin)}` }, tickformat: ",d", nticks: 8 };
    return { ...grid, range, type: "date", title: { text: "Time of day" }, nticks: 8, tickformatstops: [
        { dtickrange: [null, 1], value: "%H:%M:%S.%6f" }, { dtickrange: [1, 1000], value: "%H:%M:%S.%3f" },
        { dtickrange: [1000, 60000], value: "%H:%M:%S" }, { dtickrange: [60000, null], value: "%H:%M" }] };
}

function layoutOf(height, title, more = {}) {
    return { height, font, margin: { l: 80, r: 45, t: 40, b: 50 }, modebar: { orientation: "v" }, paper_bgcolor: "#ffffff", plot_bgcolor: "#ffffff",
        hovermode: "closest", showlegend: true, legend: { orientation: "h", x: 0, y: 1.02, yanchor: "bottom", font: { size: 12 }, traceorder: "normal" },
        xaxis: timeAxis(), yaxis: { ...grid, title: { text: title, standoff: 14 }, tickformat: more.format || "" },
        yaxis2: { overlaying: "y", range: [0, 1], visible: false, fixedrange: true }, shapes: [], ...more.layout };
}

// The value of each drawn branch in which it is another one than in those before it.
function valueTraces(numbers) {
    const seen = new Set(), traces = [];
    for (const number of numbers) {
        const series = valueSeries(number, stockNow());
        if (!series || !series.times.length) continue;
        if (seen.has(series.of)) continue;
        seen.add(series.of);
        const end = branches[number].end;
        const name = traces.length ? `value in ${safe(branches[number].name)}` : "value";
        traces.push({ x: series.times.concat([end]).map(toAxis), y: series.values.concat(series.values.slice(-1)).map((value) => value / 10000),
            name, mode: "lines", type: "scatter", line: { color: "#1b1f24", width: 1, dash: "4px,3px", shape: "hv" },
            hovertemplate: `${name}<br>${hoverTime}<br>%{y:.4f} dollars<extra></extra>` });
    }
    return traces;
}

// Trades that are in sight, where they are few enough to be told apart.
const markLimit = 400;
const tradesOf = (number) => {
    const key = ["trades", number, stockNow()].join();
    if (!memory.has(key)) {
        const made = branches[number].stocks[stockNow()].trades;
        memory.set(key, made && { times: timesOf(made[0]), prices: made[1], shares: made[2], sides: made[3] });
    }
    return memory.get(key);
};

function tradeTraces(numbers) {
    const found = numbers.map((number) => {
        const trades = tradesOf(number), places = [];
        if (trades) trades.times.forEach((time, place) => { if (time >= shown.from && time <= shown.to) places.push(place); });
        return { number, trades, places };
    });
    const count = found.reduce((sum, { places }) => sum + places.length, 0);
    if (!count || count > markLimit) return [];
    return found.filter(({ places }) => places.length).map(({ number, trades, places }) => ({
        x: places.map((place) => toAxis(trades.times[place])), y: places.map((place) => trades.prices[place] / 10000),
        customdata: places.map((place) => `${trades.sides[place] === "B" ? "buys" : "sells"} ${trades.shares[place]} shares`),
        name: `trades of ${safe(branches[number].name)}`, mode: "markers", type: "scatter", showlegend: false,
        marker: { color: styleOf(number).color, size: 8, line: { color: "#ffffff", width: 0.7 },
            symbol: places.map((place) => trades.sides[place] === "B" ? "triangle-up" : "triangle-down") },
        hovertemplate: `${safe(branches[number].name)}: who came %{customdata}<br>${hoverTime}<br>%{y:.4f} dollars<extra></extra>` }));
}

const hoverTime = isFine ? "%{x:,} ns" : "%{x|%H:%M:%S.%6f}";
const legendLimit = 12;

// The first events that differ from the parent, as lines and as signs on the lower edge.
function marksOf(numbers) {
    const marked = numbers.filter((number) => branches[number].difference);
    const shapes = marked.map((number) => ({ type: "line", xref: "x", yref: "paper", y0: 0, y1: 1, layer: "below",
        x0: toAxis(branches[number].difference.time), x1: toAxis(branches[number].difference.time),
        line: { color: styleOf(number).color, width: 1, dash: "dot" } }));
    const traces = marked.map((number) => {
        const { event, time } = branches[number].difference;
        return { x: [toAxis(time)], y: [0.02], yaxis: "y2", mode: "markers", type: "scatter", showlegend: false, cliponaxis: false,
            marker: { symbol: "triangle-up", size: 12, color: styleOf(number).color, line: { color: "#ffffff", width: 1 } },
            hovertemplate: `${safe(branches[number].name)}: first event that differs from ${safe(branches[number].parent)}:<br>` +
                `event ${event} at ${timeText(time)}<extra></extra>` };
    });
    return { shapes, traces };
}

function noteOf(numbers) {
    const marked = numbers.filter((number) => branches[number].difference);
    if (!marked.length || marked.length > 4) return [];
    const middle = (shown.from + shown.to) / 2;
    return marked.map((number, place) => {
        const { event, time } = branches[number].difference;
        const isLeft = time > middle;
        return { xref: "x", yref: "paper", x: toAxis(time), y: 0.97 - 0.1 * place, yanchor: "top", showarrow: false,
            xanchor: isLeft ? "right" : "left", xshift: isLeft ? -4 : 4, bgcolor: "rgba(255,255,255,0.85)",
            font: { size: 12, color: number ? styleOf(number).color : "#1b1f24" },
            text: byId("plot-mid").clientWidth < 900 ? `${safe(branches[number].name)}: event ${event}`
                : `${safe(branches[number].name)}: first difference, event ${event}, ${timeText(time, 3)}` };
    }).filter((_, place) => { const t = branches[marked[place]].difference.time; return t >= shown.from && t <= shown.to; });
}

function drawLines(name) {
    const unit = units[name], numbers = drawn(), isPair = byId("pair").checked;
    const traces = numbers.map((number, place) => {
        const parent = numberOf.get(branches[number].parent);
        const whole = branches[number].parent !== null && !numbers.includes(parent);
        const series = seriesOf(number, stockNow(), name, whole);
        const style = styleOf(number);
        return { x: series.times.map(toAxis), y: series.columns[0].map((value) => value === null ? null : unit.of(value)),
            name: safe(branches[number].name), mode: "lines", type: "scatter", showlegend: numbers.length <= legendLimit,
            line: { ...style, width: numbers.length > 1 ? style.width : 1.6, dash: isPair && place === 1 ? "5px,3px" : style.dash, shape: "hv" }, connectgaps: false, meta: number,
            hovertemplate: `${safe(branches[number].name)}<br>${hoverTime}<br>${unit.hover}<extra></extra>` };
    });
    const { shapes, traces: marks } = marksOf(numbers);
    const layout = layoutOf(name === "mid" ? 400 : 340, unit.title, { format: unit.format });
    layout.shapes = shapes;
    if (name === "mid") layout.annotations = noteOf(numbers);
    if (name === "spread") layout.yaxis.rangemode = "tozero";
    const more = name === "mid" ? valueTraces(numbers).concat(tradeTraces(numbers)) : [];
    draw(name, traces.concat(more, marks), layout);
}

const bidShades = ["#08519c", "#3182bd", "#6baed6", "#9ecae1", "#c6dbef"];
const askShades = ["#a63603", "#e6550d", "#fd8d3c", "#fdae6b", "#fdd0a2"];

function depthTraces(number, isFilled) {
    const series = seriesOf(number, stockNow(), "depth", true);
    const x = series.times.map(toAxis), traces = [];
    for (const [side, sign, shades] of [["bid", -1, bidShades], ["ask", 1, askShades]]) {
        const offset = side === "bid" ? 0 : data.levels;
        let total = series.times.map(() => 0);
        for (let level = 0; level < data.levels; level++) {
            const column = series.columns[offset + level] || [];
            total = total.map((value, place) => value + (column[place] || 0));
            if (!isFilled && level > 0 && level < data.levels - 1) continue;      // of lines the innermost and the outermost
            const outline = { width: 1.1, dash: level === 0 ? "solid" : "2px,2px" };
            traces.push({ x, y: total.map((value) => sign * value), customdata: column, mode: "lines", type: "scatter",
                name: isFilled ? `${side} ${level + 1}` : `${safe(branches[number].name)}: ${level ? `all ${data.levels} levels` : "level 1"}`,
                line: isFilled ? { shape: "hv", width: 0, color: shades[level] } : { shape: "hv", color: "rgba(27,31,36,0.7)", ...outline },
                fill: isFilled ? (level === 0 ? "tozeroy" : "tonexty") : "none", fillcolor: shades[level],
                showlegend: isFilled || side === "bid", hoveron: "points",
                hovertemplate: `${safe(branches[number].name)}, ${side} level ${level + 1}<br>${hoverTime}<br>%{customdata:,} shares, ` +
                    `levels 1 to ${level + 1} together %{y:,}<extra></extra>` });
        }
    }
    return traces;
}

function drawDepth() {
    const below = first(), above = second_();
    let traces = depthTraces(below, true);
    let title = branches[below].name;
    if (above >= 0 && above !== below) {
        traces = traces.concat(depthTraces(above, false));
        title += ` (filled) and ${branches[above].name} (lines)`;
    }
    document.querySelector("#figure-depth h3").textContent = `Depth by level: ${title}`;
    const layout = layoutOf(440, "Shares: bids below, asks above");
    const numbers = [...new Set([below, above])].filter((number) => number >= 0);
    const { shapes, traces: marks } = marksOf(numbers);
    layout.shapes = shapes;
    layout.yaxis.tickformat = ",d";
    draw("depth", traces.concat(marks), layout);
}

const agentLimit = 2000;
function chosenAgents() {
    const places = data.agents.map((_, place) => place);
    if (places.length <= agentLimit) return places;
    const width = (place) => {
        const values = branches.map((branch) => branch.cash[place]);
        return Math.max(...values) - Math.min(...values);
    };
    return places.sort((one, other) => width(other) - width(one)).slice(0, agentLimit).sort((one, other) => one - other);
}

function drawAgents(name) {
    const numbers = drawn(), places = chosenAgents(), stock = stockNow();
    const isCash = name === "cash";
    const dodge = places.length > 60 ? 0 : 0.6 / Math.max(1, numbers.length);
    const traces = numbers.map((number, which) => {
        const values = isCash ? branches[number].cash : branches[number].positions[stock];
        return { x: places.map((place) => data.agents[place] + (which - (numbers.length - 1) / 2) * dodge),
            y: places.map((place) => values[place]), customdata: places.map((place) => data.names[data.agents[place]]),
            name: safe(branches[number].name), mode: "markers", type: "scatter", meta: number, showlegend: numbers.length <= legendLimit,
            marker: { color: styleOf(number).color, symbol: symbols[number % symbols.length], size: places.length > 200 ? 5 : 8,
                line: { color: "#ffffff", width: 0.5 } },
            hovertemplate: `${safe(branches[number].name)}, %{customdata}<br>` +
                (isCash ? "%{y:,.2f} dollars" : "%{y:,} shares") + "<extra></extra>" };
    });
    const layout = layoutOf(340, isCash ? "Cash, dollars" : `${safe(data.symbols[stock])}, shares`);
    layout.xaxis = { ...grid, title: { text: places.length < data.agents.length
        ? `Agent (the ${agentLimit} whose cash differs most between branches)` : "Agent" }, tickformat: "d",
        dtick: places.length <= 12 ? 1 : undefined, zeroline: false };
    layout.yaxis.tickformat = ",d";
    draw(name, traces, layout, false);
}

// ---- drawing and linking

const plots = ["mid", "spread", "depth", "volume", "fees"];
const linked = new Set();
let isLinking = false;

function draw(name, traces, layout, hasTime = true) {
    const place = byId(`plot-${name}`);
    Plotly.react(place, traces, layout, config);
    if (linked.has(name)) return;
    linked.add(name);
    if (hasTime) place.on("plotly_relayout", (change) => {
        if (isLinking) return;
        if (change["xaxis.autorange"]) show(data.begin, data.end);
        else if ("xaxis.range[0]" in change) show(fromAxis(change["xaxis.range[0]"]), fromAxis(change["xaxis.range[1]"]));
    });
    place.on("plotly_legendclick", (click) => {
        const number = click.data[click.curveNumber].meta;
        if (number !== undefined && !byId("pair").checked) switchBranch(number, !on[number]);
        return false;
    });
    place.on("plotly_legenddoubleclick", () => false);
}

function show(from, to) {
    if (!(from < to)) return;
    shown.from = Math.round(from);
    shown.to = Math.round(to);
    byId("from").value = shortTime(shown.from);
    byId("to").value = shortTime(shown.to);
    isLinking = true;
    drawLines("mid");                                                   // its trades are marked where they are few
    const changes = plots.filter((name) => name !== "mid").map((name) => Plotly.relayout(byId(`plot-${name}`), { "xaxis.range": [toAxis(shown.from), toAxis(shown.to)] }));
    Promise.all(changes).then(() => { isLinking = false; });
}

function drawAll() {
    for (const name of ["mid", "spread", "volume", "fees"]) drawLines(name);
    drawDepth();
    drawAgents("cash");
    drawAgents("position");
    const seen = new Set(drawn());
    byId("hidden-branches").textContent = branches.map((_, number) => seen.has(number) ? "" : `.of-${number} { display: none; }`).join("\n");
    byId("some").textContent = seen.size === branches.length ? "" :
        `${seen.size} of ${branches.length} branches are shown, in the pictures and in the tables; the boxes above show the others.`;
    for (const section of document.querySelectorAll("section.stock")) section.hidden = Number(section.dataset.stock) !== stockNow();
}

function switchBranch(number, isOn) {
    on[number] = isOn;
    byId(`branch-${number}`).checked = isOn;
    drawAll();
}

// ---- controls

function option(value, text) {
    const made = document.createElement("option");
    made.value = String(value);
    made.textContent = text;
    return made;
}

function swatch(number) {
    const style = styleOf(number);
    const made = document.createElementNS("http://www.w3.org/2000/svg", "svg");
    const line = document.createElementNS("http://www.w3.org/2000/svg", "line");
    made.setAttribute("class", "swatch");
    made.setAttribute("viewBox", "0 0 30 12");
    for (const [name, value] of Object.entries({ x1: 1, x2: 29, y1: 6, y2: 6, stroke: style.color, "stroke-width": style.width + 0.7,
        "stroke-dasharray": style.dash === "solid" ? "" : style.dash.replace(/px/g, "") })) line.setAttribute(name, value);
    made.append(line);
    return made;
}

function makeControls() {
    const sheet = document.createElement("style");
    sheet.id = "hidden-branches";
    document.head.append(sheet);
    data.symbols.forEach((symbol, number) => byId("stock").append(option(number, symbol)));
    byId("stock-choice").hidden = data.symbols.length < 2;
    branches.forEach((branch, number) => {
        const label = document.createElement("label"), box = document.createElement("input");
        box.type = "checkbox";
        box.id = `branch-${number}`;
        box.checked = on[number];
        box.addEventListener("change", () => switchBranch(number, box.checked));
        label.append(box, " ", swatch(number), " ", branch.name);
        byId("branches").append(label, " ");
        byId("first").append(option(number, branch.name));
        byId("second").append(option(number, branch.name));
    });
    byId("second").prepend(option(-1, "none"));
    byId("first").value = "0";
    byId("second").value = branches.length > 1 ? "1" : "-1";
    for (const name of ["stock", "first", "second", "pair"]) byId(name).addEventListener("change", drawAll);
    for (const [name, value] of [["all", true], ["none", false]]) byId(name).addEventListener("click", () => {
        branches.forEach((_, number) => { on[number] = value; byId(`branch-${number}`).checked = value; });
        drawAll();
    });
    byId("whole").addEventListener("click", () => show(data.begin, data.end));
    const choose = () => {
        const from = timeOf(byId("from").value), to = timeOf(byId("to").value);
        const isRight = from !== null && to !== null && from < to;
        byId("trouble").textContent = isRight ? "" : "From and to are times of day, 09:30:00 or 09:30:00.5, and from comes before to.";
        if (isRight) show(from, to);
    };
    for (const name of ["from", "to"]) byId(name).addEventListener("change", choose);
    byId("from").value = shortTime(shown.from);
    byId("to").value = shortTime(shown.to);
    byId("controls").addEventListener("submit", (event) => event.preventDefault());
    byId("controls").hidden = false;
}

// On paper all is open and as wide as the page.
const paper = 690;
const all = [...plots, "cash", "position"];
addEventListener("beforeprint", () => {
    for (const place of document.querySelectorAll("details")) place.open = true;
    for (const name of all) Plotly.relayout(byId(`plot-${name}`), { width: paper, autosize: false });
});
addEventListener("afterprint", () => {
    for (const name of all) Plotly.relayout(byId(`plot-${name}`), { width: null, autosize: true });
});

async function start() {
    const packed = Uint8Array.from(atob(byId("plotly").textContent), (letter) => letter.charCodeAt(0));
    const stream = new Blob([packed]).stream().pipeThrough(new DecompressionStream("gzip"));
    const script = document.createElement("script");
    script.textContent = await new Response(stream).text();
    document.head.append(script);
    makeControls();
    drawAll();
    document.documentElement.dataset.ready = "yes";
}

start().catch((fault) => {
    byId("trouble").textContent = `The pictures can't be drawn in this browser (${fault}). The tables below are complete.`;
    throw fault;
});
