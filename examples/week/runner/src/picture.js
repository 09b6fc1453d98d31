const DAY = 1440, WEEK = 7 * DAY, TALL = 720, MARKS = 8;
const DAYS = ["Mon", "Tue", "Wed", "Thu", "Fri", "Sat", "Sun"];
const KINDS = ["Fresh", "Slow", "Blocked"]; // the rules that are named for a kind of cow
const [MINUTE, BOX, COW, IN, RULE, INTERVAL, LINE, TOOK, EARLY, SINCE, MILK, WAITED, BEHIND, OTHER, PATH, DISPLAY] = Array(16).keys();
const at = id => document.getElementById(id);
const two = n => String(n).padStart(2, "0");
const count = n => n.toLocaleString("en-US");
const tenths = n => (n / 10).toLocaleString("en-US", { minimumFractionDigits: 1, maximumFractionDigits: 1 });
const litres = parts => tenths(Math.floor((10 * parts + DAY / 2) / DAY)); // a litre has as many parts as a day has minutes
const hm = m => (m < 0 ? "-" : "") + Math.floor(Math.abs(m) / 60) + ":" + two(Math.abs(m) % 60);
const clock = m => two(Math.floor((m % DAY + DAY) % DAY / 60)) + ":" + two((m % 60 + 60) % 60);
const moment = m => DAYS[Math.floor(m / DAY) % 7] + " " + clock(m);
const share = (m, of) => (100 * m / of).toFixed(2) + "%";
const percent = (m, of) => (of ? 100 * m / of : 0).toFixed(1) + " %";
const sum = (list, of) => list.reduce((total, one) => total + of(one), 0);
const escaped = text => String(text).replace(/[&<>"]/g, sign => ({ "&": "&amp;", "<": "&lt;", ">": "&gt;", '"': "&quot;" })[sign]);
const rule = n => n + " " + (data.rules[n - 1] ? data.rules[n - 1][0] : "(not on paper)");
const kind = n => n >= 1 && n <= MARKS ? n : 0;
const mark = n => `<svg class="mark" viewBox="-7 -7 14 14" aria-hidden="true"><use href="#m${kind(n)}" class="r r${kind(n)}"/></svg>`;
const early = v => v[EARLY] < 0 ? "over a day early" : `${v[EARLY]} min early`;
const isEarly = v => v[IN] && v[EARLY];
const isOtherwise = v => v[OTHER] && v[OTHER][0] !== v[IN];
const isShort = v => v[IN] && 4 * v[MILK] < DAY * litresOf.get(v[COW]);
const litresOf = new Map(data.herd.map(c => [c[0], c[2]]));
const open = new Set(), reasons = new Set();
const state = { book: 0, both: false, cows: [], box: "", order: "number", decision: "", rules: [], overdue: 18 };
const books = () => state.both ? data.weeks.map((_, n) => n) : [state.book];
const key = (book, v) => `${book}/${v[MINUTE]}/${v[BOX]}/${v[COW]}`;
/* The days that the lists cover, in whole days, and the minute of the last visit: what comes after it is not known. */
const minutes = data.weeks.flatMap(week => week.visits.map(v => v[MINUTE])), LAST = minutes.reduce((a, b) => Math.max(a, b), 0);
const FROM = Math.floor(minutes.reduce((a, b) => Math.min(a, b), LAST) / DAY), UNTIL = Math.floor(LAST / DAY), SPAN = (UNTIL - FROM + 1) * DAY;
/* All rules that decided, on paper or not. */
const deciding = [...new Set([...data.rules.keys()].map(n => n + 1).concat(data.weeks.flatMap(week => week.visits.map(v => v[RULE]))))].sort((a, b) => a - b);

/* The address keeps what is chosen, so that a view can be sent on. */
function readAddress() {
  const words = new URLSearchParams(location.hash.slice(1));
  const numbers = name => (words.get(name) || "").split(/[^0-9]+/).filter(Boolean).map(Number);
  const book = Number(words.get("book"));
  state.book = Number.isInteger(book) && data.weeks[book] ? book : 0;
  state.both = words.get("both") === "1" && data.weeks.length > 1;
  state.cows = numbers("cow");
  state.rules = numbers("rule");
  state.box = words.get("box") || "";
  state.order = words.get("order") || "number";
  state.decision = words.get("visits") || "";
  state.overdue = numbers("overdue")[0] || 18;
  reasons.clear();
  for (const minute of numbers("visit")) {
    for (const book of books()) {
      data.weeks[book].visits.filter(v => v[MINUTE] === minute && state.cows.includes(v[COW])).forEach(v => reasons.add(key(book, v)));
    }
  }
}

function writeAddress() {
  const words = new URLSearchParams();
  if (state.book) words.set("book", state.book);
  if (state.both) words.set("both", 1);
  if (state.cows.length) words.set("cow", state.cows.join(","));
  if (state.rules.length) words.set("rule", state.rules.join(","));
  if (state.box) words.set("box", state.box);
  if (state.order !== "number") words.set("order", state.order);
  if (state.decision) words.set("visits", state.decision);
  if (state.overdue !== 18) words.set("overdue", state.overdue);
  try {
    history.replaceState(null, "", "#" + words);
  } catch { /* a browser may refuse, of a file or when it comes too often: the picture is drawn all the same */ }
}

const DECISIONS = {
  "": () => true, in: v => v[IN], out: v => !v[IN], otherwise: isOtherwise, early: isEarly,
};
const isShown = v => (!state.rules.length || state.rules.includes(v[RULE])) && (!state.box || v[BOX] === Number(state.box)) &&
  (DECISIONS[state.decision] || DECISIONS[""])(v);

/* The herd list with each cow's visits in each book that is shown: all of them, and those that are chosen. */
function chosen() {
  const of = new Map(data.herd.map(c => [c[0], { cow: c, weeks: books().map(book => ({ book, all: [], shown: [] })) }]));
  books().forEach((book, n) => {
    for (const v of data.weeks[book].visits) {
      const week = of.get(v[COW]).weeks[n];
      week.all.push(v);
      if (isShown(v)) week.shown.push(v);
    }
  });
  const shown = one => one.weeks.flatMap(week => week.shown);
  const list = [...of.values()].filter(one => shown(one).length && (!state.cows.length || state.cows.includes(one.cow[0])));
  const orders = {
    refused: one => -shown(one).filter(v => !v[IN]).length,
    short: one => Math.min(...shown(one).filter(v => v[IN]).map(v => v[INTERVAL]), Infinity),
    long: one => -Math.max(...one.weeks.map(week => longest(one.cow, week.all).minutes)),
  };
  const order = orders[state.order];
  if (order) list.map(one => [order(one), one]).sort(([a, x], [b, y]) => a - b || x.cow[0] - y.cow[0]).forEach(([, one], n) => { list[n] = one; });
  return list;
}

/* What she is, going by the rules that decided her visits: what makes a cow fresh is the program's to know. */
function tags(one) {
  const names = new Set(one.weeks.flatMap(week => week.all.map(v => data.rules[v[RULE] - 1]?.[0])));
  return KINDS.filter(name => names.has(name)).map(name => name.toLowerCase());
}

/* Her times without milking, from leaving the box to the next coming in. */
function gaps(cow, all) {
  const ends = [cow[7]], starts = [];
  for (const v of all.filter(v => v[IN])) {
    starts.push(v[MINUTE]);
    ends.push(v[MINUTE] + v[TOOK]);
  }
  return ends.map((from, n) => ({ from, to: starts[n] ?? LAST, isOpen: starts[n] === undefined })).filter(gap => gap.from < gap.to);
}

function longest(cow, all) {
  const none = { minutes: 0 };
  return gaps(cow, all).map(gap => ({ ...gap, minutes: gap.to - gap.from })).reduce((a, b) => b.minutes > a.minutes ? b : a, none);
}

function teeth(cow, all) {
  return gaps(cow, all).map(({ from, to }) => {
    const left = Math.max(from, 0), high = m => TALL - Math.min(m - from, TALL), full = from + TALL;
    return `M${left} ${TALL}L${left} ${high(left)}` + (full > left && full < to ? `L${full} 0` : "") + `L${to} ${high(to)}L${to} ${TALL}Z`;
  }).join("");
}

const told = v => `${moment(v[MINUTE])}, box ${v[BOX]}: ${v[IN] ? "came in" : "stayed out"}, rule ${rule(v[RULE])}, line ${v[LINE]}` +
  (isEarly(v) ? `, ${early(v)}` : "");

/* One visit in a line that is `of` minutes long from `from` on. */
function drawn(v, from, of, top, foot, under, attributes = "") {
  const x = share(v[MINUTE] - from, of), title = `<title>${escaped(told(v))}</title>`;
  const touch = attributes && `<rect x="${x}" y="0" width="18" height="34" transform="translate(-9)" class="touch"/>`;
  if (!v[IN]) return `<g ${attributes}>${title}${touch}<use href="#m${kind(v[RULE])}" x="${x}" y="${under}" class="r r${kind(v[RULE])}"/></g>`;
  const bar = `<line x1="${x}" x2="${x}" y1="${top}" y2="${foot}" class="${isEarly(v) ? "early" : "in"}"/>`;
  return `<g ${attributes}>${title}${touch}${bar}${isEarly(v) ? `<use href="#me" x="${x}" y="${top + 3}" class="early"/>` : ""}</g>`;
}

const changedLine = (from, of, height) => data.changed > from && data.changed < from + of
  ? `<line x1="${share(data.changed - from, of)}" x2="${share(data.changed - from, of)}" y1="0" y2="${height}" class="changed"/>` : "";

function line(cow, week) {
  const days = DAYS.map((_, d) => `<line x1="${share(d, 7)}" x2="${share(d, 7)}" y1="0" y2="44" class="day"/>`).join("");
  return `<svg class="line" aria-hidden="true">${days}
<svg x="0" y="6" width="100%" height="22" viewBox="0 0 ${WEEK} ${TALL}" preserveAspectRatio="none"><path class="teeth" d="${teeth(cow, week.all)}"/></svg>
${changedLine(0, WEEK, 44)}${week.shown.map(v => drawn(v, 0, WEEK, 5, 28, 36)).join("")}</svg>`;
}

function row(one) {
  const number = one.cow[0], isOpen = open.has(number) || state.cows.length === 1;
  const counts = one.weeks.map(({ book, shown }) => `${state.both ? data.weeks[book].name + ": " : ""}came in ${shown.filter(v => v[IN]).length} times, ` +
    `stayed out ${shown.filter(v => !v[IN]).length} times`);
  const label = [`Cow ${number}`, ...tags(one), `box ${one.cow[1]}`].join(", ") + ": " + counts.join("; ");
  return `<div class="cow${isOpen ? " open" : ""}"><button type="button" data-cow="${number}" aria-expanded="${isOpen}" aria-label="${escaped(label)}">
<span><b>${number}</b><small>${tags(one).join(" ")}</small></span><span>${one.weeks.map(week => line(one.cow, week)).join("")}</span></button>${isOpen ? detail(one) : ""}</div>`;
}

/* The hours over the days, and a day from midnight to midnight, with the interval over each milking. */
function hours() {
  const texts = [0, 3, 6, 9, 12, 15, 18, 21, 24].map(h => `<text x="${share(Math.min(Math.max(h, .3), 23.7), 24)}" y="11" class="hour">${h}</text>`).join("");
  return `<div class="strip hours" aria-hidden="true"><span></span><svg>${texts}</svg></div>`;
}

function strip(week, day) {
  const from = day * DAY, visits = week.shown.filter(v => v[MINUTE] >= from && v[MINUTE] < from + DAY);
  const lines = [0, 3, 6, 9, 12, 15, 18, 21, 24].map(h => `<line x1="${share(h, 24)}" x2="${share(h, 24)}" y1="0" y2="34" class="day"/>`).join("");
  const labels = visits.filter(v => v[IN]).map(v =>
    `<text x="${Math.min(Math.max(100 * (v[MINUTE] - from) / DAY, 4), 95).toFixed(2)}%" y="9">${hm(v[INTERVAL])}</text>`).join("");
  return `<div class="strip" aria-hidden="true"><span>${DAYS[day]}</span><svg>${lines}
<line x1="0" x2="100%" y1="22" y2="22" stroke="var(--soft)"/>${changedLine(from, DAY, 34)}${labels}
${visits.map(v => drawn(v, from, DAY, 11, 22, 28, `class="tap" data-tap="${key(week.book, v)}"`)).join("")}</svg></div>`;
}

/* Why a visit went as it did. */
function why(book, v) {
  const week = data.weeks[book], words = data.rules[v[RULE] - 1]?.[1] || "This rule is not on paper.";
  const listing = v[MINUTE] < data.changed ? data.monday : week.listing;
  const text = listing.find(([number]) => number === v[LINE])?.[1] ?? "";
  const rows = [
    [`Rule ${rule(v[RULE])}`, escaped(words)],
    ["Display", `<kbd>${escaped(v[DISPLAY])}</kbd>`],
    ["Decided by", `<code>${v[LINE]}${escaped(text)}</code>`],
    ["Interval", `${hm(v[INTERVAL])} h, as the program has it; ${hm(v[SINCE])} h since she left the box`],
    ["At the gate", v[WAITED] ? `since ${moment(v[MINUTE] - v[WAITED])}, ${v[WAITED]} min` + (v[BEHIND] ? `, ${v[BEHIND]} of them behind a cow let in early` : "") : "she did not wait"],
    ["The box", box(week, v)],
  ];
  if (v[IN]) rows.push(["In the box", `until ${moment(v[MINUTE] + v[TOOK])}, ${v[TOOK]} min, ${litres(v[MILK])} litres`]);
  if (isEarly(v)) rows.push(["Early", `<span class="tag">${early(v)}</span>: the first book would have made her wait so long`]);
  if (v[OTHER]) rows.push(["The other book", other(book, v)]);
  if (v[PATH] >= 0) rows.push(["Lines gone through", `<code>${data.paths[v[PATH]].join(" ")}</code>`]);
  return `<dl>${rows.map(([name, words]) => `<dt>${escaped(name)}</dt><dd>${words}</dd>`).join("")}</dl>`;
}

/* Who was in the box, and until when. */
function box(week, v) {
  const inside = week.visits.filter(w => w !== v && w[BOX] === v[BOX] && w[IN] && w[MINUTE] <= v[MINUTE] && v[MINUTE] < w[MINUTE] + w[TOOK]);
  const washed = data.washes.filter(([box, start, minutes]) => box === v[BOX] && (v[MINUTE] - start + DAY) % DAY < minutes);
  const words = inside.map(w => `cow ${w[COW]} was in it, from ${moment(w[MINUTE])} until ${moment(w[MINUTE] + w[TOOK])}`)
    .concat(washed.map(([, start, minutes]) => `was washed until ${clock(start + minutes)}`));
  return words.length ? words.join("; it ") : "was free";
}

function other(book, v) {
  const [isIn, number, line] = v[OTHER];
  return `${escaped(data.weeks[1 - book].name)} says: ${isIn ? "comes in" : "stays out"}, rule ${rule(number)}, line ${line}` +
    (isOtherwise(v) && !v[IN] && v[EARLY] ? `; that is ${early(v)}` : "");
}

function visitRow(book, v) {
  const isOpen = reasons.has(key(book, v));
  return `<tr data-visit="${key(book, v)}" tabindex="0" role="button" aria-expanded="${isOpen}"><td>${moment(v[MINUTE])}</td>
<td>${v[IN] ? "in, " : mark(v[RULE]) + " out, "}${rule(v[RULE])}${isEarly(v) ? ` <br><span class="tag">${early(v)}</span>` : ""}</td>
<td class="n more">${v[LINE]}</td><td class="n">${hm(v[INTERVAL])}</td><td class="n more">${hm(v[SINCE])}</td><td class="n more">${v[WAITED] || ""}</td>
<td class="n more">${v[IN] ? v[TOOK] : ""}</td><td class="n">${v[IN] ? litres(v[MILK]) : ""}</td></tr>` + (isOpen ? whyRow(book, v) : "");
}

const whyRow = (book, v) => `<tr class="why"><td colspan="8">${why(book, v)}</td></tr>`;

function weekOf(one, week) {
  const name = state.both ? `<h3>${escaped(data.weeks[week.book].name)}</h3>` : "";
  const milk = sum(week.shown, v => v[MILK]), ins = week.shown.filter(v => v[IN]).length;
  return `<div>${name}${hours()}${DAYS.map((_, day) => strip(week, day)).join("")}
<div class="scroll long"><table class="visits"><thead><tr><th>Time</th><th>Decision, rule</th><th class="n more">Line</th><th class="n">Interval, h</th>
<th class="n more">Since left, h</th><th class="n more">Waited, min</th><th class="n more">In box, min</th><th class="n">Litres</th></tr></thead>
<tbody>${week.shown.map(v => visitRow(week.book, v)).join("")}</tbody></table></div>
<p class="small soft">${ins} milkings, ${litres(milk)} litres. Longest without milking: ${hm(longest(one.cow, week.all).minutes)} h.</p></div>`;
}

function detail(one) {
  const c = one.cow;
  return `<div class="detail${state.both ? " both" : ""}"><p class="small"><b>Cow ${c[0]}</b>: box ${c[1]}, ${c[2]} litres a day, ${tenths(c[3])} litres a minute, lingers
${c[6]} min, calved ${c[4]} days before Monday${c[5] ? `, blocked until ${c[5] < WEEK ? moment(c[5]) : "the week's end"}` : ""}. Over each milking its interval in hours
and minutes.<span class="paper"> ${escaped(books().map(book => data.weeks[book].name).join(" and "))}${data.date ? `, the week from Monday, ${data.date}` : ""}.</span></p><button type="button" class="print" data-print="${c[0]}">Print her sheet</button>
<div class="${state.both ? "two" : ""}">${one.weeks.map(week => weekOf(one, week)).join("")}</div></div>`;
}

function median(numbers) {
  const sorted = [...numbers].sort((a, b) => a - b);
  return sorted.length ? sorted[Math.floor(sorted.length / 2)] : null;
}

/* What visits come to, under the names of the tiles. */
function figures(visits) {
  const ins = visits.filter(v => v[IN]), milk = sum(ins, v => v[MILK]), middle = median(ins.map(v => v[INTERVAL]));
  return [["Visits", count(visits.length)], ["Came in", count(ins.length)], ["Stayed out", count(visits.length - ins.length)],
    ["Litres", litres(milk)], ["Litres a milking", ins.length ? litres(milk / ins.length) : "none"],
    ["Median interval, h", middle === null ? "none" : hm(middle)], ["Short milkings", count(ins.filter(isShort).length)],
    ["Let in early", count(visits.filter(isEarly).length)], ["Behind early, min", count(sum(visits, v => v[BEHIND]))]];
}

function totals(list) {
  const by = books().map((_, n) => list.flatMap(one => one.weeks[n].shown)), visits = by.flat();
  const all = sum(books(), book => data.weeks[book].visits.length), tiles = figures(by[0]);
  tiles.splice(3, 0, ["Cows", count(list.length)]);
  at("tiles").hidden = state.both;
  at("by-book").hidden = !state.both;
  at("tiles").innerHTML = tiles.map(([name, value]) => `<div><dt>${name}</dt><dd>${value}</dd></div>`).join("");
  at("by-book").innerHTML = `<thead><tr><th></th>${books().map(book => `<th class="n">${escaped(data.weeks[book].name)}</th>`).join("")}</tr></thead>` +
    figures(by[0]).map(([name], n) => `<tr><td>${name}</td>${by.map(visits => `<td class="n">${figures(visits)[n][1]}</td>`).join("")}</tr>`).join("");
  at("shown").textContent = visits.length < all ? `of the ${count(visits.length)} visits chosen from ${count(all)}` : `of all ${count(all)} visits`;
  const counted = (name, of) => `<tr><td>${name}</td><td class="n">${count(of.filter(v => v[IN]).length)}</td>
<td class="n">${count(of.filter(v => !v[IN]).length)}</td><td class="n">${litres(sum(of, v => v[MILK]))}</td></tr>`;
  const head = name => `<thead><tr><th>${name}</th><th class="n">Came in</th><th class="n">Stayed out</th><th class="n">Litres</th></tr></thead>`;
  at("by-rule").innerHTML = head("Rule") + deciding.map(n => counted(rule(n), visits.filter(v => v[RULE] === n))).join("");
  at("by-day").innerHTML = head("Day, box") + DAYS.map((name, d) => counted(name, visits.filter(v => Math.floor(v[MINUTE] / DAY) === d))).join("") +
    numbers(data.boxes).map(b => counted("Box " + b, visits.filter(v => v[BOX] === b))).join("");
}

const numbers = most => Array.from({ length: most }, (_, n) => n + 1);

/* How long each box was taken and washed, in all days of the lists: no filter counts here. */
function use() {
  const rows = books().flatMap(book => numbers(data.boxes).map(box => {
    const ins = data.weeks[book].visits.filter(v => v[BOX] === box && v[IN]);
    const taken = sum(ins, v => Math.min(v[MINUTE] + v[TOOK], (UNTIL + 1) * DAY) - v[MINUTE]);
    const washed = SPAN / DAY * sum(data.washes.filter(wash => wash[0] === box), wash => wash[2]);
    return `<tr><td>${state.both ? escaped(data.weeks[book].name) + ", " : ""}Box ${box}</td><td class="n">${percent(taken, SPAN)}</td><td class="n">${percent(washed, SPAN)}</td>
<td class="n">${count(ins.length)}</td><td class="n">${litres(sum(ins, v => v[MILK]))}</td></tr>`;
  }));
  at("by-box").innerHTML = `<thead><tr><th>${DAYS[FROM]} to ${DAYS[UNTIL]}</th><th class="n">Taken</th><th class="n">Washed</th><th class="n">Milkings</th><th class="n">Litres</th></tr></thead>` + rows.join("");
}

/* The cows that were longest without milking. */
function overdue(list) {
  const rows = list.flatMap(one => one.weeks.map(week => ({ one, week, gap: longest(one.cow, week.all) }))).filter(({ gap }) => gap.minutes > 60 * state.overdue)
    .sort((a, b) => b.gap.minutes - a.gap.minutes);
  const cows = new Set(rows.map(({ one }) => one.cow[0])).size;
  at("overdue-title").textContent = `Overdue: ${cows === 1 ? "1 cow was" : count(cows) + " cows were"} more than ${state.overdue} hours without milking`;
  at("by-overdue").innerHTML = `<thead><tr><th class="n">Cow</th><th></th><th class="n">Without, h</th><th>From</th><th>To</th></tr></thead>` +
    rows.map(({ one, week, gap }) => `<tr><td class="n">${one.cow[0]}</td><td>${tags(one).join(" ")}${state.both ? ", " + escaped(data.weeks[week.book].name) : ""}</td>
<td class="n">${hm(gap.minutes)}</td><td>${gap.from < 0 ? "before Monday" : moment(gap.from)}</td><td>${gap.isOpen ? "still at the end" : moment(gap.to)}</td></tr>`).join("");
}

/* The visits at which a cow was let in early, the first one first. */
function faulty(visits) {
  const list = visits.filter(isEarly).sort((a, b) => a[MINUTE] - b[MINUTE]);
  at("fault").hidden = !list.length;
  at("by-early").innerHTML = `<thead><tr><th>Time</th><th class="n">Cow</th><th class="n">Early, min</th><th class="n">Since she left, min</th>
<th class="n">Litres</th><th class="n">Box</th></tr></thead>` + list.map(v => `<tr><td>${moment(v[MINUTE])}</td><td class="n">${v[COW]}</td>
<td class="n"><span class="tag">${v[EARLY] < 0 ? "over a day" : v[EARLY]}</span></td><td class="n">${v[SINCE]}</td><td class="n">${litres(v[MILK])}</td><td class="n">${v[BOX]}</td></tr>`).join("");
}

/* The program with the number of visits that each line decided. */
function program(list) {
  const times = new Map(), book = books()[books().length - 1];
  for (const v of list.flatMap(one => one.weeks.find(week => week.book === book).shown)) times.set(v[LINE], (times.get(v[LINE]) || 0) + 1);
  at("by-line").innerHTML = data.weeks[book].listing.map(([number, text]) => `<tr${times.has(number) ? ' class="decides"' : ""}>
<td class="n">${times.has(number) ? count(times.get(number)) : ""}</td><td class="n">${number}</td><td>${escaped(text)}</td></tr>`).join("");
}

function draw() {
  const list = chosen(), visits = list.flatMap(one => one.weeks.flatMap(week => week.shown));
  totals(list);
  use();
  overdue(list);
  program(list);
  faulty(visits);
  at("cows").innerHTML = list.map(row).join("");
  at("none").hidden = list.length > 0;
  document.querySelectorAll(".scroll tr[data-visit][aria-expanded=true]").forEach(row => toTop(row));
  sheet();
}

/* Brings a row to the top of the table in which it is scrolled; where the table is not, the row into sight, if it was tapped. */
function toTop(row, isTapped) {
  const table = row.closest(".scroll");
  if (table.scrollHeight > table.clientHeight) table.scrollTop = row.offsetTop - row.closest("table").tHead.offsetHeight - 30;
  else if (isTapped === true) row.scrollIntoView({ block: "center" });
}

/* On paper an open cow is a sheet of her own. */
const sheet = () => document.body.classList.toggle("sheet", Boolean(document.querySelector(".cow.open")));

const choice = (type, name, value, text, on) => `<label class="choice"><input type="${type}" name="${name}" value="${value}"${on ? " checked" : ""}>
<span>${text}</span></label>`;

function drawForm() {
  const put = (id, choices) => {
    at(id).querySelectorAll("label").forEach(label => label.remove());
    at(id).insertAdjacentHTML("beforeend", choices.join(""));
  };
  const isTwo = data.weeks.length > 1;
  put("books", data.weeks.map((week, n) => choice("radio", "book", n, escaped(week.name), n === state.book && !state.both))
    .concat(isTwo ? choice("radio", "book", "both", "Side by side", state.both) : []));
  const decisions = [["", "all"], ["in", "came in"], ["out", "stayed out"]].concat(isTwo ? [["otherwise", "decided otherwise by the other book"], ["early", "let in early"]] : []);
  put("decisions", decisions.map(([value, text]) => choice("radio", "decision", value, text, value === state.decision)));
  put("rules", deciding.map(n => choice("checkbox", "rule", n, mark(n) + escaped(rule(n)), state.rules.includes(n))));
  at("box").innerHTML = `<option value="">all</option>` + numbers(data.boxes).map(b => `<option>${b}</option>`).join("");
  at("cow").value = state.cows.join(", ");
  at("box").value = state.box;
  at("order").value = state.order;
  at("overdue").value = state.overdue;
}

function drawSigns() {
  const sample = inner => `<svg class="mark" viewBox="-7 -10 14 20" aria-hidden="true">${inner}</svg>`;
  const signs = [[sample('<line x1="0" x2="0" y1="-10" y2="10" class="in"/>'), "came in"]];
  if (data.weeks.length > 1) signs.push([sample('<line x1="-4" x2="-4" y1="-10" y2="10" class="early"/><use href="#me" x="-4" y="-5" class="early"/>'), "let in early"]);
  signs.push([`<svg class="mark wide" viewBox="0 0 34 16" aria-hidden="true"><path class="teeth" d="M1 15L30 2V15Z"/></svg>`, "time since she left the box"]);
  if (data.changed) signs.push([sample('<line x1="0" x2="0" y1="-10" y2="10" class="changed"/>'), moment(data.changed) + ", the change"]);
  const refusing = deciding.filter(n => data.weeks.some(week => week.visits.some(v => v[RULE] === n && !v[IN])));
  at("signs").innerHTML = signs.concat(refusing.map(n => [mark(n), "stayed out, " + escaped(rule(n))])).map(([sign, text]) => `<li>${sign}${text}</li>`).join("");
}

function readForm() {
  const form = new FormData(at("form"));
  state.both = form.get("book") === "both";
  if (!state.both) state.book = Number(form.get("book"));
  state.decision = form.get("decision");
  state.rules = form.getAll("rule").map(Number);
  state.cows = at("cow").value.split(/[^0-9]+/).filter(Boolean).map(Number);
  state.box = at("box").value;
  state.order = at("order").value;
  draw();
  writeAddress();
}

/* A visit, by its key: opens or shuts its reason, in the table of its cow. */
function toggle(name, isTapped) {
  const row = document.querySelector(`tr[data-visit="${name}"]`);
  const [book, minute, at, cow] = name.split("/").map(Number);
  const isOpen = row.getAttribute("aria-expanded") === "true";
  if (isOpen && isTapped) return toTop(row, true);
  reasons[isOpen ? "delete" : "add"](name);
  row.setAttribute("aria-expanded", String(!isOpen));
  if (isOpen) return row.nextElementSibling.remove();
  const v = data.weeks[book].visits.find(v => v[MINUTE] === minute && v[BOX] === at && v[COW] === cow);
  row.insertAdjacentHTML("afterend", whyRow(book, v));
  if (isTapped) toTop(row, true);
}

function toggleCow(button) {
  const number = Number(button.dataset.cow), one = chosen().find(one => one.cow[0] === number);
  const isOpen = button.getAttribute("aria-expanded") === "true";
  open[isOpen ? "delete" : "add"](number);
  button.setAttribute("aria-expanded", String(!isOpen));
  button.parentElement.classList.toggle("open", !isOpen);
  if (isOpen) button.nextElementSibling.remove();
  else button.insertAdjacentHTML("afterend", detail(one));
  sheet();
}

/* One cow's sheet: the others are shut while it is printed. */
function printSheet(cow) {
  const others = [...document.querySelectorAll(".cow.open")].filter(one => one.firstElementChild.dataset.cow !== cow);
  others.forEach(one => one.classList.remove("open"));
  print();
  others.forEach(one => one.classList.add("open"));
}

at("form").addEventListener("input", readForm);
at("overdue").addEventListener("input", () => {
  state.overdue = Math.max(1, Math.floor(at("overdue").valueAsNumber) || 18);
  overdue(chosen());
  writeAddress();
});
at("reset").addEventListener("click", () => {
  Object.assign(state, { cows: [], box: "", order: "number", decision: "", rules: [] });
  open.clear();
  reasons.clear();
  drawForm();
  draw();
  writeAddress();
});
at("cows").addEventListener("click", event => {
  const target = event.target.closest("[data-tap], [data-visit], [data-print], button[data-cow]");
  if (!target) return;
  const { tap, visit, print, cow } = target.dataset;
  if (tap) toggle(tap, true);
  else if (visit) toggle(visit);
  else if (print) printSheet(print);
  else if (cow) toggleCow(target);
});
at("cows").addEventListener("keydown", event => {
  if (event.target.dataset?.visit && [" ", "Enter"].includes(event.key)) {
    event.preventDefault();
    toggle(event.target.dataset.visit);
  }
});
addEventListener("hashchange", () => { readAddress(); drawForm(); draw(); });

at("lead").textContent = `${count(data.herd.length)} cows, ${data.boxes === 1 ? "one box" : count(data.boxes) + " boxes"}, ` +
  `${data.weeks.map(week => count(week.visits.length)).join(" and ")} visits, each decided by a line of the rule program` +
  (data.date ? `, in the week from Monday, ${data.date}` : "") + "." + (data.changed ? ` The dashed line is ${moment(data.changed)}: ${data.change}.` : "");
if (matchMedia("(min-width: 760px)").matches) document.querySelectorAll("details.wide").forEach(one => { one.open = true; });
at("axis").lastElementChild.innerHTML = DAYS.map(name => `<span>${name}</span>`).join("");
drawSigns();
readAddress();
drawForm();
draw();
