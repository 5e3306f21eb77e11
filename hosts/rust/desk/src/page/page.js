"use strict";
// The page's program. Nothing is worked out anew: the columns of `data` are the trace, the proved library's answers to it, and
// the words that `amsulfezd explain` has. An entry is its index from 0; it is shown counted from 1.
(() => {
const data = JSON.parse(document.getElementById("data").textContent);
const N = data.state.length;
const element = (id) => document.getElementById(id);
const NO_ADDRESS = 128;
const LEFT = 96; // the names of the rows stand left of it
const ROW = 24; // the height of a line of the table
const thousands = (number) => number.toLocaleString("en-US");
const clockOf = (entry) => data.clock[entry] === null ? "" : thousands(data.clock[entry]) + " us";
const stateOf = (entry) => data.before[entry] === data.state[entry]
    ? data.states[data.state[entry]]
    : data.states[data.before[entry]] + " → " + data.states[data.state[entry]];
// The same with a sample of each state's colour.
const stateParts = (entry) => {
    const made = document.createDocumentFragment();
    const state = (number) => {
        const chip = document.createElement("i");
        chip.className = "chip";
        chip.style.background = "var(--s" + number + ")";
        made.append(chip, data.states[number]);
    };
    state(data.before[entry]);
    if (data.before[entry] !== data.state[entry]) {
        made.append(" → ");
        state(data.state[entry]);
    }
    return made;
};
const nextOf = (entry) => data.next[entry] < 0 ? "alone" : String(data.next[entry]);
const timeOfDay = (clock) => {
    const second = Math.floor(clock / 1e6);
    const two = (number) => String(number).padStart(2, "0");
    return Math.floor(second / 3600) + ":" + two(Math.floor(second / 60) % 60) + ":" + two(second % 60);
};
const ALARMS = ["", "station out of the ring", "token claimed", "own address in use: offline", "own address in use: listens"];

// The heading.
element("name").textContent = data.name;
element("settings").textContent = data.settings || "";
element("ending").textContent = data.ending;
element("counts").textContent = data.counts || "";
if (data.ended) element("ending").classList.add("bad");

// ---- what is looked for ----
const option = (select, value, words) => {
    const made = document.createElement("option");
    made.value = value;
    made.textContent = words;
    select.append(made);
};
option(element("by-state"), "", "any");
data.states.forEach((name, number) => option(element("by-state"), number, name));
const met = new Set(data.refusal);
option(element("by-refusal"), "", "any");
if (met.size > (met.has(0) ? 1 : 0)) option(element("by-refusal"), "-", "every refusal");
for (const [number, words] of data.refusals) if (met.has(number)) option(element("by-refusal"), number, number + " (" + words + ")");
ALARMS.forEach((words, number) => { if (number && data.alarm.includes(number)) option(element("by-alarm"), number, words); });

const FIELDS = ["by-address", "by-state", "by-refusal", "by-notice", "by-alarm", "by-words"];
let found = null; // the entries that are looked for, or null without a search
let list = []; // what the table shows: entries, and notes as -1, -2, ..
let chosen = -1;

// The entries with their notes between them.
const everything = () => {
    const notes = data.notes.map((note, index) => [note[0], -1 - index]).sort((a, b) => a[0] - b[0]);
    if (!notes.length) return Int32Array.from({length: N}, (_, entry) => entry);
    const all = new Int32Array(N + notes.length);
    let place = 0, note = 0;
    for (let entry = 0; entry <= N; entry++) {
        while (note < notes.length && notes[note][0] === entry) all[place++] = notes[note++][1];
        if (entry < N) all[place++] = entry;
    }
    return all;
};
const ALL = everything();

const namesAddress = (entry, address) => {
    for (let arrow = data.first[entry]; arrow < data.first[entry + 1]; arrow++) {
        if (data.arrows[5 * arrow + 2] === address || data.arrows[5 * arrow + 3] === address) return true;
    }
    return data.told[entry] === address;
};

const search = () => {
    const [address, state, refusal, notice, alarm, words] = FIELDS.map((id) => element(id).value.trim());
    const addresses = address.split(/[\s,]+/).filter((word) => /^\d+$/.test(word)).map(Number);
    const small = words.toLowerCase();
    const texts = small && data.texts.map((text) => text.toLowerCase().includes(small));
    const any = (value, wanted) => wanted === "" || (wanted === "-" ? value !== 0 : value === Number(wanted));
    if (address && !addresses.length) {
        found = [];
    } else if ([address, state, refusal, notice, alarm, words].every((word) => word === "")) {
        found = null;
    } else {
        found = [];
        for (let entry = 0; entry < N; entry++) {
            if ((state === "" || data.state[entry] === Number(state)) && any(data.refusal[entry], refusal) &&
                any(data.notice[entry], notice) && any(data.alarm[entry], alarm) &&
                (!small || texts[data.came[entry]] || texts[data.did[entry]]) &&
                addresses.every((one) => namesAddress(entry, one))) found.push(entry);
        }
    }
    list = found || ALL;
    element("found").textContent = found ? thousands(found.length) + " of " + thousands(N) + " entries" : "";
    element("rows").scrollTop = 0;
    layTable();
    draw();
};

// The entry found after or before the one that is chosen.
const go = (step) => {
    const entries = found || ALL.filter((item) => item >= 0);
    if (!entries.length) return;
    let place = lowerBound(entries, chosen);
    if (step > 0) place = entries[place] === chosen ? place + 1 : place;
    else place -= 1;
    place = (place + entries.length) % entries.length;
    choose(entries[place], true, true);
};
const lowerBound = (sorted, value) => {
    let low = 0, high = sorted.length;
    while (low < high) {
        const middle = (low + high) >> 1;
        if (sorted[middle] < value) low = middle + 1; else high = middle;
    }
    return low;
};

// ---- the table: only the lines that are seen are there ----
const rows = element("rows"), space = element("space");
const cell = (row, words, parts) => {
    const made = document.createElement("span");
    made.append(parts || words);
    made.title = words;
    row.append(made);
};
const layTable = () => {
    space.style.height = list.length * ROW + "px";
    fillTable();
};
const fillTable = () => {
    const from = Math.max(0, Math.floor(rows.scrollTop / ROW) - 8);
    const to = Math.min(list.length, Math.ceil((rows.scrollTop + rows.clientHeight) / ROW) + 8);
    const made = document.createDocumentFragment();
    if (from % 2) made.append(document.createElement("i"));
    for (let place = from; place < to; place++) {
        const item = list[place];
        const row = document.createElement("div");
        row.className = "row";
        row.style.top = place * ROW + "px";
        if (item < 0) {
            const note = data.notes[-1 - item];
            row.classList.add("note");
            ["*", thousands(note[1]) + " us", "note", "", note[2]].forEach((words) => cell(row, words));
        } else {
            row.dataset.entry = item + 1;
            if (item === chosen) row.classList.add("chosen");
            if (data.alarm[item]) row.classList.add("alarm");
            if (data.refusal[item]) row.classList.add("refused");
            [item + 1, clockOf(item), data.texts[data.came[item]]].forEach((words) => cell(row, words));
            cell(row, stateOf(item), stateParts(item));
            cell(row, data.texts[data.did[item]]);
        }
        made.append(row);
    }
    space.replaceChildren(made);
};
rows.addEventListener("scroll", () => requestAnimationFrame(fillTable));
rows.addEventListener("click", (event) => {
    const row = event.target.closest(".row[data-entry]");
    if (row) choose(Number(row.dataset.entry) - 1, true, false);
});
const keys = (event) => {
    const page = Math.max(1, Math.floor(rows.clientHeight / ROW) - 1);
    const step = {ArrowDown: 1, ArrowUp: -1, PageDown: page, PageUp: -page, Home: -Infinity, End: Infinity}[event.key];
    if (step === undefined || !list.length) return;
    event.preventDefault();
    let place = Math.max(0, list.indexOf(chosen));
    place = Math.min(list.length - 1, Math.max(0, place + step));
    while (list[place] < 0 && place > 0 && place < list.length - 1) place += Math.sign(step);
    if (list[place] >= 0) choose(list[place], true, true);
};
rows.addEventListener("keydown", keys);

// ---- choosing an entry, here and there ----
const choose = (entry, moveTimeline, moveTable) => {
    chosen = entry;
    const show = element("entry");
    show.replaceChildren();
    const line = (name, ...words) => {
        const made = document.createElement("p"), bold = document.createElement("b");
        bold.textContent = name;
        made.append(bold, ...words);
        show.append(made);
    };
    line("Entry " + (entry + 1), clockOf(entry) + (data.clock[entry] === null ? "" : " (" + timeOfDay(data.clock[entry]) + ")"));
    line("came", data.texts[data.came[entry]]);
    line("did", data.texts[data.did[entry]]);
    line("state", stateParts(entry), "; next station: " + nextOf(entry));
    show.dataset.entry = entry + 1;
    if (moveTimeline && (entry < view.first + 1 || entry > view.first + columns() - 2)) {
        view.first = entry - columns() / 2 + 0.5;
        keepInside();
    }
    if (moveTable) {
        const place = found ? lowerBound(list, entry) : list.indexOf(entry);
        const top = place * ROW;
        if (top < rows.scrollTop || top > rows.scrollTop + rows.clientHeight - 2 * ROW) {
            rows.scrollTop = top - rows.clientHeight / 2 + ROW;
        }
    }
    fillTable();
    draw();
};

// ---- the timeline: a column for each entry, as in the picture ----
const canvas = element("timeline"), overview = element("overview");
const view = {first: 0, width: 10}; // the first column, not always whole, and the width of one
const inner = () => Math.max(50, canvas.clientWidth - LEFT - 8);
const columns = () => inner() / view.width;
const xOf = (entry) => LEFT + (entry - view.first) * view.width;
const entryAt = (x) => Math.floor(view.first + (x - LEFT) / view.width);
const widest = 90;
const narrowest = () => Math.min(widest, inner() / Math.max(1, N));
const keepInside = () => {
    view.width = Math.min(widest, Math.max(narrowest(), view.width));
    view.first = Math.max(0, Math.min(N - columns(), view.first));
};
const zoom = (factor, x) => {
    const held = view.first + (x - LEFT) / view.width;
    view.width *= factor;
    view.width = Math.min(widest, Math.max(narrowest(), view.width));
    view.first = held - (x - LEFT) / view.width;
    keepInside();
    draw();
};
const fit = () => {
    view.width = narrowest();
    view.first = 0;
    draw();
};

// The lanes: our own, the others going up, and one for what has no address.
const lanes = (() => {
    const seen = new Set();
    for (let at = 0; at < data.arrows.length; at += 5) {
        seen.add(data.arrows[at + 2]);
        seen.add(data.arrows[at + 3]);
    }
    seen.delete(data.own);
    const others = [...seen].sort((a, b) => a - b);
    return [data.own, ...others];
})();
const laneIndex = new Map(lanes.map((address, index) => [address, index]));
const laneName = (address) => address === NO_ADDRESS ? "no address" : address === data.own ? "own " + address : String(address);
// What is named over the bus.
const events = [
    ...data.notes.map(([place, clock, words]) => ({at: place, words, colour: "--note", lane: -1})),
    ...data.stays.filter((stay) => stay[3] !== null).flatMap(([address, , heard, left]) => [
        ...(heard === null ? [] : [{at: heard + 1, words: address + " last heard", colour: "--faint", lane: laneIndex.get(address)}]),
        {at: left, words: address + " is out of the ring", colour: "--alarm", lane: laneIndex.get(address)},
    ]),
    ...data.alarm.flatMap((alarm, entry) => alarm > 1 ? [{at: entry, words: ALARMS[alarm], colour: "--alarm", lane: 0}] : []),
].sort((a, b) => a.at - b.at);
const top = {found: 2, entry: 10, clock: 26, since: 42, events: 68};
const EVENT_LINES = events.length ? 3 : 0;
top.state = top.events + 15 * EVENT_LINES + 4;
top.next = top.state + 24;
top.marks = top.next + 18;
top.lanes = top.marks + 26;
const laneHeight = Math.max(13, Math.min(30, 300 / lanes.length));
const height = Math.ceil(top.lanes + laneHeight * lanes.length + 4);
const laneY = (index) => top.lanes + laneHeight * (index + 0.5);

let colours = {};
const readColours = () => {
    const style = getComputedStyle(document.documentElement);
    colours = {};
    for (const name of ["--paper", "--ink", "--faint", "--line", "--soft", "--chosen", "--edge", "--alarm", "--alarm-soft", "--found",
        "--lane", "--own", "--plain", "--block-ink", "--good", "--note", ...data.states.map((_, number) => "--s" + number),
        ...data.kinds.map((_, number) => "--k" + number)]) colours[name] = style.getPropertyValue(name).trim();
};

let waiting = false;
const draw = () => {
    if (waiting) return;
    waiting = true;
    requestAnimationFrame(() => {
        waiting = false;
        paint();
    });
};
const prepared = (target, wide, high) => {
    const scale = window.devicePixelRatio || 1;
    if (target.width !== Math.round(wide * scale) || target.height !== Math.round(high * scale)) {
        target.width = Math.round(wide * scale);
        target.height = Math.round(high * scale);
        target.style.height = high + "px";
    }
    const pen = target.getContext("2d");
    pen.setTransform(scale, 0, 0, scale, 0, 0);
    pen.fillStyle = colours["--paper"];
    pen.fillRect(0, 0, wide, high);
    pen.font = "11px system-ui, 'DejaVu Sans', sans-serif";
    pen.textBaseline = "middle";
    return pen;
};
// Words in a width, cut if they are too long; nothing if not three letters fit.
const fitted = (pen, words, width) => {
    if (pen.measureText(words).width <= width) return words;
    let kept = words.length;
    while (kept > 2 && pen.measureText(words.slice(0, kept) + "…").width > width) kept--;
    return kept > 2 ? words.slice(0, kept) + "…" : "";
};
const arrowHead = (pen, x, y, up) => {
    const by = up ? 6 : -6;
    pen.beginPath();
    pen.moveTo(x, y);
    pen.lineTo(x - 3.5, y + by);
    pen.lineTo(x + 3.5, y + by);
    pen.fill();
};

const paint = () => {
    const wide = canvas.clientWidth;
    if (!wide) return;
    const pen = prepared(canvas, wide, height);
    const right = LEFT + inner();
    const from = Math.max(0, Math.floor(view.first));
    const to = Math.min(N, Math.ceil(view.first + columns()));
    canvas.dataset.first = from + 1;
    canvas.dataset.last = to;
    element("shown").textContent = N ? "entries " + thousands(from + 1) + " to " + thousands(to) + " of " + thousands(N) : "no entries";
    const fine = view.width >= 6; // else a pixel stands for several entries
    pen.fillStyle = colours["--faint"];
    pen.textAlign = "left";
    for (const [name, y] of [["entry", top.entry + 7], ["clock", top.clock + 7], ["since", top.since + 14], ["state", top.state + 11],
        ["next station", top.next + 8], ["told, refused", top.marks + 11]]) pen.fillText(name, 6, y);
    if (EVENT_LINES) pen.fillText("events", 6, top.events + 8);
    lanes.forEach((address, index) => {
        pen.fillStyle = index ? colours["--faint"] : colours["--ink"];
        pen.fillText(laneName(address), 6, laneY(index));
    });
    pen.save();
    pen.beginPath();
    pen.rect(LEFT, 0, right - LEFT, height);
    pen.clip();

    // The column that is chosen, and those that are found.
    if (chosen >= from && chosen < to) {
        pen.fillStyle = colours["--chosen"];
        pen.fillRect(xOf(chosen), 0, Math.max(2, view.width), height);
    }
    if (found) {
        pen.fillStyle = colours["--found"];
        let last = -9;
        for (let place = lowerBound(found, from); place < found.length && found[place] < to; place++) {
            const x = Math.floor(xOf(found[place]));
            if (x > last) pen.fillRect(x, top.found, Math.max(2, view.width - 1), 5);
            last = x;
        }
    }
    paintLanes(pen, from, to, right);
    paintAxis(pen, from, to);
    paintEvents(pen, from, to);
    paintBlocks(pen, from, to, top.state, 20, (entry) => data.state[entry], (state) => "--s" + state, (state) => data.states[state]);
    paintBlocks(pen, from, to, top.next, 14, (entry) => data.next[entry], () => "--plain", (next) => next < 0 ? "alone" : String(next));
    if (fine) paintColumns(pen, from, to); else paintPixels(pen, from, to);
    if (chosen >= from && chosen < to) {
        pen.strokeStyle = colours["--edge"];
        pen.lineWidth = 1.5;
        pen.strokeRect(xOf(chosen) + 0.5, 0.5, Math.max(2, view.width) - 1, height - 1);
    }
    pen.restore();
    paintOverview();
};

const staysOf = lanes.map((address, index) => index && address !== NO_ADDRESS ? data.stays.filter((stay) => stay[0] === address) : [[0, 0, 0, null]]);
const paintLanes = (pen, from, to, right) => {
    pen.lineWidth = 1;
    lanes.forEach((address, index) => {
        const y = Math.round(laneY(index)) + 0.5;
        const ends = [];
        let reached = -9;
        pen.strokeStyle = index ? colours["--lane"] : colours["--own"];
        pen.beginPath();
        for (const [, first, , left] of staysOf[index]) {
            if (first >= to || (left !== null && left < from)) continue;
            const start = Math.max(LEFT, xOf(first)), end = left === null ? Math.min(right, xOf(N)) : Math.min(right, xOf(left));
            // Of several ends in one pixel one is seen.
            if (left !== null && end > reached + 1) ends.push(end);
            if (end > reached + 0.5) {
                pen.moveTo(start, y);
                pen.lineTo(end, y);
                reached = end;
            }
        }
        pen.stroke();
        pen.fillStyle = colours["--alarm"];
        for (const end of ends) pen.fillRect(end - 1.5, y - 6, 3, 12);
    });
};

// Numbers, clocks and the time since the poll before, as far as they have room.
const paintAxis = (pen, from, to) => {
    pen.fillStyle = colours["--faint"];
    pen.textAlign = "left";
    const room = (least) => {
        let step = 1;
        for (const factor of [2, 2.5, 2, 2, 2.5, 2, 2, 2.5, 2, 2, 2.5, 2, 2, 2.5, 2]) if (step * view.width < least) step *= factor;
        return Math.round(step);
    };
    const step = room(44);
    for (let entry = Math.ceil(from / step) * step; entry < to; entry += step) {
        pen.fillText(thousands(entry + 1), xOf(entry) + 2, top.entry + 7);
    }
    const far = room(140);
    for (let entry = Math.ceil(from / far) * far; entry < to; entry += far) {
        if (data.clock[entry] === null) continue;
        const micros = String(data.clock[entry] % 1e6).padStart(6, "0");
        const words = timeOfDay(data.clock[entry]) + "." + micros;
        // Half a time says another one.
        if (xOf(entry) + 2 + pen.measureText(words).width > LEFT + inner()) continue;
        pen.fillText(words, xOf(entry) + 2, top.clock + 7);
    }
    if (view.width < 3) return;
    let before = null;
    for (let entry = Math.max(0, from - 1); entry < to; entry++) {
        const clock = data.refusal[entry] ? null : data.clock[entry];
        if (clock === null) continue;
        if (before !== null) {
            const since = clock - before;
            const high = since === 0 ? 0 : Math.min(24, 3 * String(Math.abs(since)).length);
            pen.fillStyle = since < 0 ? colours["--alarm"] : colours["--lane"];
            pen.fillRect(xOf(entry) + 1, top.since + 24 - high, Math.max(1, Math.min(view.width - 2, 14)), high);
            if (view.width >= 54) {
                pen.fillStyle = since < 0 ? colours["--alarm"] : colours["--faint"];
                pen.fillText((since < 0 ? "" : "+") + (Math.abs(since) < 1e5 ? thousands(since) : Math.abs(since) < 1e7 ? thousands(Math.round(since / 1e3)) + " ms" : thousands(Math.round(since / 1e6)) + " s"),
                    xOf(entry) + 17, top.since + 17);
            }
        }
        before = clock;
    }
};

// One block for each stretch of entries that have the same.
const paintBlocks = (pen, from, to, y, high, of, colour, words) => {
    pen.textAlign = "center";
    let start = from, lastX = -1;
    for (let entry = from + 1; entry <= to; entry++) {
        if (entry < to && of(entry) === of(start)) continue;
        const x = Math.max(LEFT, xOf(start)), end = xOf(entry);
        // Of several stretches in one pixel the first is seen.
        if (end > lastX + 0.8) {
            pen.fillStyle = colours[colour(of(start))];
            pen.fillRect(x, y, Math.max(1, end - x - (view.width > 4 ? 1 : 0)), high);
            lastX = Math.max(lastX, end);
            const seen = Math.min(end, LEFT + inner()) - x;
            if (seen > 22) {
                pen.fillStyle = high > 15 ? colours["--block-ink"] : colours["--ink"];
                const name = fitted(pen, words(of(start)), seen - 4);
                if (name) pen.fillText(name, x + seen / 2, y + high / 2 + 0.5);
            }
        }
        start = entry;
    }
};

// Each telegram as an arrow, each notice and refusal as a mark.
const paintColumns = (pen, from, to) => {
    for (let entry = from; entry < to; entry++) {
        const first = data.first[entry], count = data.first[entry + 1] - first;
        for (let index = 0; index < count; index++) {
            const at = 5 * (first + index);
            const x = xOf(entry) + view.width * (2 * index + 1) / (2 * count);
            const [kind, way, source, target, own] = [0, 1, 2, 3, 4].map((part) => data.arrows[at + part]);
            const colour = own ? colours["--alarm"] : colours["--k" + kind];
            const y0 = laneY(laneIndex.get(source)), y1 = laneY(laneIndex.get(target));
            pen.strokeStyle = pen.fillStyle = colour;
            pen.globalAlpha = way === 3 ? 0.55 : 1;
            pen.lineWidth = kind === 0 ? 2.5 : 1.5;
            pen.setLineDash(way > 1 ? [3, 2] : []);
            pen.beginPath();
            if (y0 === y1) {
                const wide = Math.min(7, view.width / 3), high = Math.min(20, laneHeight - 3);
                pen.moveTo(x - wide, y0);
                pen.bezierCurveTo(x - wide, y0 - high, x + wide, y0 - high, x + wide, y0 - 5);
                pen.stroke();
                arrowHead(pen, x + wide, y0, false);
            } else {
                pen.moveTo(x, y0);
                pen.lineTo(x, y1 + (y1 > y0 ? -5 : 5));
                pen.stroke();
                arrowHead(pen, x, y1, y1 < y0);
                pen.beginPath();
                pen.arc(x, y0, 2.2, 0, 7);
                pen.fill();
            }
            pen.setLineDash([]);
            pen.globalAlpha = 1;
            if (view.width / count >= 24 && y0 !== y1) {
                pen.textAlign = "left";
                pen.fillText(data.letters[kind], x + 5, y0 + (y1 > y0 ? 9 : -8));
            }
        }
        paintMarks(pen, entry, xOf(entry) + view.width / 2);
    }
};
const paintMarks = (pen, entry, x) => {
    const y = top.marks + 11;
    pen.textAlign = "center";
    if (data.refusal[entry]) {
        const words = String(data.refusal[entry]);
        const half = Math.min(view.width / 2, 10);
        pen.fillStyle = colours["--alarm"];
        pen.fillRect(x - half, y - 8, 2 * half, 16);
        if (view.width > 16) {
            pen.fillStyle = colours["--paper"];
            pen.fillText(words, x, y + 0.5);
        }
    }
    if (data.notice[entry]) {
        pen.strokeStyle = data.notice[entry] === 1 ? colours["--good"] : colours["--alarm"];
        pen.lineWidth = 2.2;
        pen.beginPath();
        if (data.notice[entry] === 1) {
            pen.moveTo(x - 5, y);
            pen.lineTo(x - 1, y + 4);
            pen.lineTo(x + 5, y - 5);
        } else {
            pen.moveTo(x - 4, y - 4);
            pen.lineTo(x + 4, y + 4);
            pen.moveTo(x + 4, y - 4);
            pen.lineTo(x - 4, y + 4);
        }
        pen.stroke();
    }
};

// Where a pixel stands for several entries: which lanes were busy in it, and whether something was refused or told.
const paintPixels = (pen, from, to) => {
    let entry = from;
    const busy = new Int32Array(lanes.length);
    while (entry < to) {
        const x = Math.floor(xOf(entry));
        const end = Math.min(to, Math.max(entry + 1, Math.ceil(view.first + (x + 1 - LEFT) / view.width)));
        busy.fill(-1);
        let refused = 0, timeouts = 0, replies = 0, alarms = 0;
        for (; entry < end; entry++) {
            refused |= data.refusal[entry];
            alarms |= data.alarm[entry];
            if (data.notice[entry] === 1) replies++;
            if (data.notice[entry] === 2) timeouts++;
            for (let at = 5 * data.first[entry]; at < 5 * data.first[entry + 1]; at += 5) {
                busy[laneIndex.get(data.arrows[at + 2])] = data.arrows[at];
                if (busy[laneIndex.get(data.arrows[at + 3])] < 0) busy[laneIndex.get(data.arrows[at + 3])] = 9;
            }
        }
        const wide = Math.max(1, view.width);
        for (let lane = 0; lane < lanes.length; lane++) {
            if (busy[lane] < 0) continue;
            pen.fillStyle = busy[lane] === 9 ? colours["--lane"] : colours["--k" + busy[lane]];
            const high = busy[lane] === 9 ? 3 : Math.min(10, laneHeight - 4);
            pen.fillRect(x, laneY(lane) - high / 2, wide, high);
        }
        if (replies) { pen.fillStyle = colours["--good"]; pen.fillRect(x, top.marks + 12, wide, 6); }
        if (timeouts) { pen.fillStyle = colours["--alarm"]; pen.fillRect(x, top.marks + 7, wide, 5); }
        if (refused || alarms) { pen.fillStyle = colours["--alarm"]; pen.fillRect(x, top.marks, wide, 6); }
    }
};

// What is named over the bus: each label stands under every label that reaches over it, so that no line of an event crosses one.
const paintEvents = (pen, from, to) => {
    const ends = new Array(EVENT_LINES).fill(-Infinity);
    const room = view.width > 0.5; // else the lines alone are shown
    let last = -9;
    pen.textAlign = "left";
    pen.lineWidth = 1;
    for (const event of events) {
        if (event.at < from || event.at > to) continue;
        const x = Math.max(LEFT, xOf(event.at));
        let line = EVENT_LINES;
        while (line > 0 && ends[line - 1] + 4 <= x) line--;
        const labelled = room && line < EVENT_LINES;
        // Of several lines in one pixel one is seen.
        if (!labelled && x < last + 1.5) continue;
        last = x;
        pen.strokeStyle = pen.fillStyle = colours[event.colour];
        pen.setLineDash(room ? [4, 3] : []);
        pen.beginPath();
        pen.moveTo(x, labelled ? top.events + 15 * line + 2 : top.state - 8);
        pen.lineTo(x, !room ? top.state : event.lane < 0 ? height : laneY(event.lane));
        pen.stroke();
        if (!labelled) continue;
        const words = fitted(pen, event.words, 320);
        pen.fillText(words, x + 4, top.events + 15 * line + 8);
        ends[line] = x + 8 + pen.measureText(words).width;
    }
    pen.setLineDash([]);
};

// All entries on a strip, and the part that is shown.
let strip = null;
const paintOverview = () => {
    const wide = overview.clientWidth, high = 14;
    const scale = window.devicePixelRatio || 1;
    if (!strip || strip.wide !== wide || strip.colours !== colours) {
        const kept = document.createElement("canvas");
        kept.width = Math.round(wide * scale);
        kept.height = Math.round(high * scale);
        const pen = kept.getContext("2d");
        pen.scale(scale, scale);
        for (let x = 0; x < wide; x++) {
            const from = Math.floor(x * N / wide), to = Math.max(from + 1, Math.floor((x + 1) * N / wide));
            let alarm = 0;
            for (let entry = from; entry < Math.min(N, to); entry++) alarm |= data.alarm[entry] | data.refusal[entry];
            if (from >= N) break;
            pen.fillStyle = colours["--s" + data.state[from]];
            pen.fillRect(x, 3, 1, high - 3);
            if (alarm) {
                pen.fillStyle = colours["--alarm"];
                pen.fillRect(x, 0, 1.5, 3);
            }
        }
        strip = {kept, wide, colours};
    }
    const pen = prepared(overview, wide, high);
    pen.drawImage(strip.kept, 0, 0, wide, high);
    pen.strokeStyle = colours["--edge"];
    pen.lineWidth = 2;
    const x = view.first / Math.max(1, N) * wide, width = columns() / Math.max(1, N) * wide;
    pen.strokeRect(Math.max(1, x), 1, Math.max(3, Math.min(wide - 2, width)), high - 2);
};

// ---- the hand on the timeline ----
const placeOf = (event) => event.clientX - canvas.getBoundingClientRect().left;
canvas.addEventListener("wheel", (event) => {
    event.preventDefault();
    if (event.shiftKey || Math.abs(event.deltaX) > Math.abs(event.deltaY)) {
        view.first += (event.deltaX || event.deltaY) / view.width;
        keepInside();
        draw();
    } else {
        zoom(Math.exp(-event.deltaY / 350), Math.max(LEFT, placeOf(event)));
    }
}, {passive: false});
let hold = null;
canvas.addEventListener("pointerdown", (event) => {
    hold = {x: placeOf(event), first: view.first, moved: false};
    canvas.setPointerCapture(event.pointerId);
});
canvas.addEventListener("pointermove", (event) => {
    const x = placeOf(event);
    if (!hold) return showTip(event, x);
    if (Math.abs(x - hold.x) > 3) hold.moved = true;
    if (!hold.moved) return;
    canvas.classList.add("dragged");
    element("tip").hidden = true;
    view.first = hold.first - (x - hold.x) / view.width;
    keepInside();
    draw();
});
canvas.addEventListener("pointerup", (event) => {
    const x = placeOf(event), moved = hold && hold.moved;
    hold = null;
    element("tip").hidden = true; // what it says stands below now
    canvas.classList.remove("dragged");
    const entry = entryAt(x);
    if (!moved && x >= LEFT && entry >= 0 && entry < N) choose(entry, false, true);
});
canvas.addEventListener("pointerleave", () => { element("tip").hidden = true; });
const showTip = (event, x) => {
    const tip = element("tip"), entry = entryAt(x);
    tip.hidden = x < LEFT || entry < 0 || entry >= N || view.width < 2;
    if (tip.hidden) return;
    tip.textContent = "entry " + (entry + 1) + "  " + clockOf(entry) + "\n" + data.texts[data.came[entry]] + "\n" + stateOf(entry) + "\n" + data.texts[data.did[entry]];
    const part = element("timeline-part").getBoundingClientRect();
    const left = event.clientX - part.left + 14;
    tip.style.left = Math.min(left, part.width - tip.offsetWidth - 4) + "px";
    tip.style.top = event.clientY - part.top + 18 + "px";
};
canvas.addEventListener("keydown", (event) => {
    if (event.key === "+" || event.key === "=") zoom(1.5, LEFT + inner() / 2);
    else if (event.key === "-") zoom(1 / 1.5, LEFT + inner() / 2);
    else if (event.key === "0") fit();
    else if (event.key === "ArrowRight") go(1);
    else if (event.key === "ArrowLeft") go(-1);
    else keys(event);
});
const along = (event) => {
    if (!event.buttons) return;
    const x = event.clientX - overview.getBoundingClientRect().left;
    view.first = x / overview.clientWidth * N - columns() / 2;
    keepInside();
    draw();
};
overview.addEventListener("pointerdown", along);
overview.addEventListener("pointermove", along);
element("in").addEventListener("click", () => zoom(2, LEFT + inner() / 2));
element("out").addEventListener("click", () => zoom(0.5, LEFT + inner() / 2));
element("fit").addEventListener("click", fit);
for (const id of FIELDS) element(id).addEventListener("input", search);
element("search").addEventListener("submit", (event) => { event.preventDefault(); go(1); });
element("search").addEventListener("keydown", (event) => {
    if (event.key === "Enter" && event.shiftKey) { event.preventDefault(); go(-1); }
});
element("previous").addEventListener("click", () => go(-1));
element("clear").addEventListener("click", () => {
    for (const id of FIELDS) element(id).value = "";
    search();
    if (chosen >= 0) choose(chosen, true, true);
});

// ---- who was heard ----
if (data.heard) {
    const table = element("heard");
    const line = (words, tag) => {
        const row = document.createElement("tr");
        for (const word of words) {
            const made = document.createElement(tag);
            made.textContent = word;
            row.append(made);
        }
        table.append(row);
        return row;
    };
    if (!data.heard.length) element("heard-part").append("Nobody was heard.");
    else line(["address", "times", "first heard, us", "last heard, us", "last response"], "th");
    for (const [address, times, first, last, response] of data.heard) {
        const row = line([address === data.own ? "own " + address : address, thousands(times), first, last, response], "td");
        row.dataset.address = address;
        row.title = "look for this address";
        row.addEventListener("click", () => {
            element("by-address").value = address;
            search();
            element("search").scrollIntoView();
        });
    }
} else {
    element("heard-part").hidden = true;
}

// ---- the legend ----
const sample = (name, style, arrow) => {
    const made = document.createElement("span"), mark = document.createElement("i");
    if (arrow) mark.className = "arrow";
    mark.style[arrow ? "borderColor" : "background"] = "var(" + style + ")";
    made.append(mark, name);
    element("legend").append(made);
};
const states = new Set(data.state), kinds = new Set();
for (let at = 0; at < data.arrows.length; at += 5) kinds.add(data.arrows[at]);
data.states.forEach((name, number) => { if (states.has(number)) sample(name, "--s" + number, false); });
data.kinds.forEach((name, number) => { if (kinds.has(number)) sample(data.letters[number] + " " + name, "--k" + number, true); });
sample("alarm", "--alarm", false);

// ---- light and dark, and paper ----
const root = document.documentElement;
const prefers = window.matchMedia("(prefers-color-scheme: dark)");
let asked = null;
const dress = (dark) => {
    root.classList.toggle("dark", dark);
    readColours();
    paint();
};
const dressed = () => dress(asked === null ? prefers.matches : asked);
prefers.addEventListener("change", dressed);
element("theme").addEventListener("click", () => {
    asked = !root.classList.contains("dark");
    dressed();
});
// On paper the table is whole, up to so many lines, and light.
const ON_PAPER = 2000;
window.addEventListener("beforeprint", () => {
    const table = element("paper");
    table.replaceChildren();
    const line = (words, tag, kind) => {
        const row = document.createElement("tr");
        if (kind) row.className = kind;
        for (const word of words) {
            const made = document.createElement(tag);
            made.append(word);
            row.append(made);
        }
        return row;
    };
    const head = document.createElement("thead");
    head.append(line(["entry", "clock", "what came", "state", "what the station did"], "th"));
    table.append(head);
    for (const item of list.slice(0, ON_PAPER)) {
        if (item < 0) {
            const note = data.notes[-1 - item];
            table.append(line(["*", thousands(note[1]) + " us", note[2], "", ""], "td", "note"));
        } else {
            const kind = data.alarm[item] ? "alarm" : data.refusal[item] ? "refused" : "";
            table.append(line([item + 1, clockOf(item), data.texts[data.came[item]], stateParts(item), data.texts[data.did[item]]], "td", kind));
        }
    }
    if (list.length > ON_PAPER) {
        table.append(line(["", "", thousands(list.length - ON_PAPER) + " more entries are not printed", "", ""], "td", "note"));
    }
    dress(false);
});
window.addEventListener("afterprint", () => {
    element("paper").replaceChildren();
    dressed();
});

window.addEventListener("resize", () => { keepInside(); fillTable(); draw(); });
readColours();
canvas.style.height = height + "px"; // before its width is asked for: a scroll bar beside it takes some
view.width = Math.max(narrowest(), Math.min(widest, inner() / Math.max(1, Math.min(N, 60))));
dressed();
search();
document.body.dataset.ready = "yes";
})();
