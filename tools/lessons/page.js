// The lesson page: one step of the lesson at a time, from the data that page.py puts into the page.
"use strict";

const lesson = JSON.parse(document.getElementById("lesson").textContent);
const steps = lesson.steps;
const contracts = Object.keys(lesson.opening.books);

// What each line of the day runner holds, number by number.
const FIELDS = {
  C: ["command", "code", "order", "lots traded", "rested or removed"],
  T: ["trade", "contract", "price", "lots", "buy order", "sell order"],
  P: ["contract", "settlement price"],
  B: ["account", "closing profit", "holding profit", "balance", "charged margin"],
};
const COLOURS = ["#1766a8", "#b34a0e", "#19703f", "#7a3e9d", "#a8201a", "#00767a", "#8a6d00", "#4b5563"];

// A ladder shows every tick between the prices that the day has had so far if there are no more than this, and
// otherwise those with orders. So many ticks are shown beyond the outermost prices, and so many around the reference.
const MOST_ROWS = 25;
const ROWS_AROUND = 2;
const ROWS_AROUND_REFERENCE = 5;
// Prices on a side, orders at a price, trades of a day: what is more is left out and counted.
const MOST_LEVELS = 12;
const MOST_ORDERS = 4;
const MOST_TRADES = 12;
// The workings of more accounts than this are folded.
const MOST_OPEN = 4;
// Pictures of more days than these have smaller marks, and no figures.
const MANY_DAYS = 40;
const MOST_DAYS_WITH_FIGURES = 12;
// A print of more pages than this is made only when it is asked for.
const MANY_PAGES = 20;

// The state after each step, the opening at 0. A step holds only the books and accounts that it changed.
const states = [lesson.opening];
for (const step of steps) {
  const before = states[states.length - 1];
  states.push({ books: { ...before.books, ...step.books }, accounts: { ...before.accounts, ...step.accounts } });
}

// The days of the lesson, each from the state before its first step to the one after its last.
const days = [];
steps.forEach(({ day }, place) => {
  if (days[days.length - 1]?.day !== day) days.push({ day, from: place });
  days[days.length - 1].to = place + 1;
});

// The exercise that each step is a part of: the comment that asks, up to the next comment above a command.
const asks = (paragraphs) => paragraphs.some((text) => /^exercise\b/i.test(text) || text.endsWith("?"));
let question = [];
const questions = steps.map(({ above }) => (question = above.length ? (asks(above) ? above : []) : question));

const stateBefore = (at) => states[Math.max(at - 1, 0)];
const dayOf = (at) => steps[Math.max(at - 1, 0)]?.day ?? 1;
const isSettlement = (at) => at > 0 && steps[at - 1].settled !== undefined;

// --- Elements ---

function element(tag, attributes, ...children) {
  return filled(document.createElement(tag), attributes, children);
}

function drawn(tag, attributes, ...children) {
  return filled(document.createElementNS("http://www.w3.org/2000/svg", tag), attributes, children);
}

function filled(node, attributes, children) {
  for (const [name, value] of Object.entries(attributes)) {
    if (value !== false && value !== undefined) node.setAttribute(name, value);
  }
  node.append(...children);
  return node;
}

function table(names, rows, attributes = {}) {
  const head = element("tr", {}, ...names.map((name) => element("th", {}, name)));
  return element("table", attributes, element("thead", {}, head), element("tbody", {}, ...rows));
}

const byId = (id) => document.getElementById(id);
const heading = (text) => element("h3", {}, text);
const note = (text) => element("p", { class: "key" }, text);
const figure = (number) => number.toLocaleString("en-US");
const lots = (count) => (count === 1 ? "1 lot" : `${figure(count)} lots`);
const sums = (text) => text.replaceAll(" x ", " \u00d7 ");
const least = (numbers) => numbers.reduce((one, other) => Math.min(one, other));
const most = (numbers) => numbers.reduce((one, other) => Math.max(one, other));
const colour = (account) => COLOURS[(account - 1) % COLOURS.length];

// --- The words of a step ---

function wordsOf(at, onPaper) {
  if (at === 0) return openingWords();
  const step = steps[at - 1];
  return [
    ...commandWords(at, step.above),
    ...comments(step.beside ? [step.beside] : []),
    ...step.said.map((said) => saidWords(step, said, onPaper)),
  ];
}

function commandWords(at, above) {
  const step = steps[at - 1];
  const where = element("p", { class: "where" }, `Day ${step.day}, command ${at} of ${steps.length}`);
  return [where, ...comments(above), element("h2", {}, step.heading)];
}

// The command without its answer, which the next key shows. What is written beside a command may tell the answer.
function askedWords(at) {
  const above = questions[at - 1].length ? questions[at - 1] : steps[at - 1].above;
  return [...commandWords(at, above), element("p", { class: "asked" }, "What is the answer? Next shows it.")];
}

function openingWords() {
  const keys = "Keys: right arrow or Page Down goes on, left arrow or Page Up back, Home and End to the first and the last"
    + " step; A shows answers at once or a step later";
  const choice = contracts.length > 1 ? `; 1 to ${contracts.length} choose a contract.` : ".";
  return [
    element("p", { class: "where" }, "The opening"),
    element("h2", {}, lesson.title),
    ...comments(lesson.notes),
    ...lesson.terms.map(([first, ...others]) =>
      element("div", { class: "said" }, element("p", {}, first), workingList(others.map((text) => [1, text])))),
    element("p", { class: "key keyboard" }, keys + choice),
  ];
}

// Lines that are set in are the rows of a table, or stay one under another.
function comments(paragraphs) {
  const blocks = [];
  for (const text of paragraphs) {
    const isRow = text.startsWith(" ");
    const last = blocks[blocks.length - 1];
    if (isRow && last?.rows) last.rows.push(text.slice(2));
    else blocks.push(isRow ? { rows: [text.slice(2)] } : { text });
  }
  return blocks.map(({ rows, text }) => (rows ? rowsOfComment(rows) : element("p", { class: "comment" }, text)));
}

function rowsOfComment(rows) {
  const starts = columnStarts(rows);
  if (starts.length === 1) return element("pre", { class: "comment" }, rows.join("\n"));
  const cells = (row, tag) => starts.map((start, place) => element(tag, {}, row.slice(start, starts[place + 1]).trim()));
  const [head, ...body] = rows;
  return element("div", { class: "comment" }, element("table", {},
    element("thead", {}, element("tr", {}, ...cells(head, "th"))),
    element("tbody", {}, ...body.map((row) => element("tr", {}, ...cells(row, "td"))))));
}

// Where the columns of rows begin: behind two spaces or more that all of them have at the same place.
function columnStarts(rows) {
  const isBlank = (place) => rows.every((row) => (row[place] ?? " ") === " ");
  const width = most(rows.map(({ length }) => length));
  const starts = [0];
  for (let place = 2; place < width; place += 1) {
    const isStart = isBlank(place - 2) && isBlank(place - 1) && !isBlank(place);
    if (isStart && rows.some((row) => row.slice(0, place).trim())) starts.push(place);
  }
  return starts;
}

function saidWords(step, said, onPaper) {
  const line = said.line ? [lineFields(said.line)] : [];
  const working = said.working.length ? [workingList(said.working)] : [];
  const answer = said === step.said[0] ? (step.code ? "answer refused" : "answer") : "";
  const isFoldable = said.account && !onPaper;
  if (!isFoldable) {
    return element("div", { class: `said ${answer}` }, ...line, element("p", {}, sums(said.words)), ...working);
  }
  const open = step.said.filter((other) => other.account).length <= MOST_OPEN ? "" : false;
  const summary = element("summary", {}, sums(said.words));
  return element("div", { class: "said" }, ...line, element("details", { open }, summary, ...working));
}

function workingList(working) {
  const lines = working.map(([level, text]) => element("li", { class: `level-${level}` }, sums(text)));
  return element("ul", { class: "working" }, ...lines);
}

// A printed line, each number with its name.
function lineFields(line) {
  const [letter, ...numbers] = line.split(" ");
  const fields = numbers.map((number, place) =>
    element("span", { class: "field" }, number, element("small", {}, FIELDS[letter][place])));
  const attributes = { class: "line", title: line, "data-line": line };
  return element("div", attributes, element("span", { class: "field letter" }, letter), ...fields);
}

// --- The book as a ladder ---

function bookCard(at, contract) {
  const book = states[at].books[contract];
  const shown = new Set(ladderPrices(at, contract));
  const hidden = [...book.buys, ...book.sells].filter(([price]) => !shown.has(price)).length;
  const tabs = element("div", { class: "tabs" }, ...contracts.map((other) => tab(other, contract)));
  const prices = `last price ${figure(book.last)}, reference ${figure(book.reference)}`;
  const range = `prices from ${figure(book.low)} to ${figure(book.high)}`;
  return [
    heading(`Book of contract ${contract}`),
    ...(contracts.length > 1 ? [tabs] : []),
    element("p", { class: "terms" }, `${book.state}; ${prices}, ${range}`),
    ladder(at, contract, [...shown]),
    ...(hidden ? [note(`${hidden} more prices with orders, further out, are not shown.`)] : []),
    note("An order: its lots, A account, # order number, Q a quote's; dashed: to close; yellow: new or changed."),
  ];
}

function tab(contract, shown) {
  const button = element("button", { "aria-pressed": contract === shown }, `Contract ${contract}`);
  button.addEventListener("click", () => choose(contract));
  return button;
}

function ladder(at, contract, prices) {
  const book = states[at].books[contract];
  const before = stateBefore(at).books[contract];
  const rows = prices.map((price) => ladderRow(book, before, price));
  return table(["to buy", "price", "to sell"], rows, { class: "ladder" });
}

// The prices from the top: every tick in the reach of the day so far, so that they stay where they are from step to
// step; or, if those are too many, the prices with orders, the last price and the reference.
function ladderPrices(at, contract) {
  const book = states[at].books[contract];
  const [lowest, highest] = reachOfDay(at, contract);
  const count = (highest - lowest) / book.tick + 1;
  if (count <= MOST_ROWS) return Array.from({ length: count }, (_, place) => highest - place * book.tick);
  const levels = [...book.buys.slice(0, MOST_LEVELS), ...book.sells.slice(0, MOST_LEVELS)];
  const prices = new Set([...levels.map(([price]) => price), book.last, book.reference]);
  return [...prices].sort((one, other) => other - one);
}

// The lowest and the highest price that the ladder shows: around the reference, and as far as the prices and orders of
// the day have reached up to now. The state after a settlement belongs to the next day.
function reachOfDay(at, contract) {
  const first = firstOfDay(at);
  const { tick, low, high, reference } = states[first].books[contract];
  const prices = [];
  for (let step = first; step <= at; step += 1) {
    const { last, buys, sells } = states[step].books[contract];
    prices.push(last, ...[...buys, ...sells].map(([price]) => price));
  }
  const lowest = least([reference, ...prices]), highest = most([reference, ...prices]);
  const below = Math.min(lowest - ROWS_AROUND * tick, reference - ROWS_AROUND_REFERENCE * tick);
  const above = Math.max(highest + ROWS_AROUND * tick, reference + ROWS_AROUND_REFERENCE * tick);
  return [Math.min(lowest, Math.max(below, low)), Math.max(highest, Math.min(above, high))];
}

// The first state of the day that a state belongs to.
function firstOfDay(at) {
  let first = at;
  while (first > 0 && !isSettlement(first)) first -= 1;
  return first;
}

function ladderRow(book, before, price) {
  const buy = book.buys.find((level) => level[0] === price);
  const sell = book.sells.find((level) => level[0] === price);
  const tags = [
    ...(price === book.last ? [element("span", { class: "tag last" }, "last")] : []),
    ...(price === book.reference ? [element("span", { class: "tag" }, "reference")] : []),
  ];
  return element("tr", { class: buy || sell ? false : "quiet", "data-price": price },
    queueCell("buy", buy, before.buys),
    element("td", {}, element("span", { class: "price" }, figure(price)), ...tags),
    queueCell("sell", sell, before.sells));
}

// The orders at one price in the order of their time stamps; on the buy side the first stands next to the price.
function queueCell(side, level, before) {
  if (!level) return element("td", {});
  const known = new Map(before.flatMap(([price, orders]) => orders.map(([number, , count]) => [number, [price, count]])));
  const marks = level[1].slice(0, MOST_ORDERS).map((order) => orderMark(level[0], order, known));
  const others = level[1].slice(MOST_ORDERS);
  if (others.length) {
    const total = others.reduce((sum, [, , count]) => sum + count, 0);
    marks.push(element("small", {}, ` and ${others.length} more, ${lots(total)} `));
  }
  return element("td", { class: side }, ...(side === "buy" ? marks.reverse() : marks));
}

function orderMark(price, [number, account, count, effect, isQuote], known) {
  const [priceBefore, countBefore] = known.get(number) ?? [];
  const attributes = {
    class: `order ${effect} ${price === priceBefore && count === countBefore ? "" : "new"}`,
    title: `order ${number} of account ${account}: ${lots(count)} ${isQuote ? "of its quote" : `to ${effect}`}`,
    style: `border-color: ${colour(account)}`,
  };
  return element("span", attributes, figure(count), element("small", {}, `A${account} #${number}${isQuote ? " Q" : ""}`));
}

// --- Accounts and trades ---

function accountCard(at) {
  const rows = lesson.active.map((account) =>
    accountRow(account, states[at].accounts[account], stateBefore(at).accounts[account]));
  const idle = Object.keys(lesson.opening.accounts).length - lesson.active.length;
  return [
    heading("Holdings and balances"),
    table(["account", "holdings", "balance", "charged"], rows),
    ...(idle ? [note(`${idle} more ${idle === 1 ? "account takes" : "accounts take"} no part.`)] : []),
  ];
}

function accountRow(account, now, before) {
  const dot = element("span", { class: "dot", style: `background: ${colour(account)}` });
  const cells = ["holdings", "balance", "charged"].map((name) =>
    element("td", { class: now[name] === before[name] ? "lines" : "lines new" }, now[name]));
  return element("tr", { "data-account": account }, element("td", {}, dot, String(account)), ...cells);
}

function tradeCard(at) {
  const day = dayOf(at);
  const made = steps.slice(0, at).filter((step) => step.day === day).flatMap((step) =>
    step.trades.map((trade) => ({ trade, isNew: step === steps[at - 1] })));
  const title = heading(`Trades of day ${day}`);
  if (!made.length) return [title, element("p", { class: "none" }, "None so far.")];
  const names = ["trade", "contract", "price", "lots", "buyer", "seller"];
  const isShown = (_, place) => contracts.length > 1 || names[place] !== "contract";
  const rows = made.slice(-MOST_TRADES).map(({ trade, isNew }) => {
    const cells = trade.filter(isShown).map((value) => element("td", {}, String(value)));
    return element("tr", { class: isNew ? "new" : false }, ...cells);
  });
  const left = made.length - rows.length;
  const earlier = left ? [note(`${figure(left)} earlier trades are not shown.`)] : [];
  return [title, ...earlier, table(names.filter(isShown), rows)];
}

// --- The picture of prices ---

const PRICES = { width: 360, height: 210, left: 62, right: 12, top: 8, bottom: 26 };

function pricePicture(at, contract) {
  const { width, height, left, right, top, bottom } = PRICES;
  const [low, high] = priceRange(at, contract);
  const x = (step) => left + (step / Math.max(steps.length, 1)) * (width - left - right);
  const y = (price) => top + ((high - Math.min(Math.max(price, low), high)) / (high - low)) * (height - top - bottom);
  const upright = (name, place) => drawn("line", { class: name, x1: place, x2: place, y1: top, y2: height - bottom });
  const label = `Prices of contract ${contract} up to step ${at}: trades, settlement prices, reference`;
  return drawn("svg", { viewBox: `0 0 ${width} ${height}`, role: "img", "aria-label": label },
    ...days.filter(({ from }) => from <= at).flatMap((day) => dayLimits(day, at, contract, x, y)),
    ...(days.length <= MANY_DAYS ? days.map(({ to }) => upright("axis", x(to))) : []),
    ...dayNames(x),
    ...priceMarks(low, high, y),
    upright("now", x(at)),
    lastPrices(at, contract, x, y),
    ...trades(at, contract, x, y),
    ...settlementPrices(at, contract, x, y));
}

// From the least to the largest price so far, with the first day's limits where they are near.
function priceRange(at, contract) {
  const { tick, low, high } = states[0].books[contract];
  const prices = states.slice(0, at + 1).flatMap(({ books }) => [books[contract].reference, books[contract].last]);
  for (const step of steps.slice(0, at)) prices.push(...pricesOf(step, contract).map(({ price }) => price));
  if ((high - low) / tick <= MOST_ROWS) prices.push(low, high);
  const margin = Math.max(ROWS_AROUND * tick, (most(prices) - least(prices)) * 0.08);
  return [least(prices) - margin, most(prices) + margin];
}

// What a step traded in a contract.
function pricesOf(step, contract) {
  const traded = step.prices.filter(([number]) => String(number) === contract);
  return traded.map(([, price, count]) => ({ price, count }));
}

// The prices allowed on a day and its reference, as far as the day has come.
function dayLimits({ from, to }, at, contract, x, y) {
  const { low, high, reference } = states[from].books[contract];
  const [start, end] = [x(from), x(Math.min(to, at))];
  return [
    drawn("rect", { class: "band", x: start, y: y(high), width: end - start, height: y(low) - y(high) }),
    drawn("line", { class: "reference", x1: start, x2: end, y1: y(reference), y2: y(reference) }),
  ];
}

// Five names at most.
function dayNames(x) {
  const every = Math.ceil(days.length / 5);
  const named = days.filter((_, place) => place % every === 0);
  return named.map(({ day, from, to }) =>
    drawn("text", { x: (x(from) + x(to)) / 2, y: PRICES.height - 8, "text-anchor": "middle" }, `day ${day}`));
}

function priceMarks(low, high, y) {
  return roundMarks(low, high).flatMap((mark) => [
    drawn("line", { class: "axis", x1: PRICES.left, x2: PRICES.width - PRICES.right, y1: y(mark), y2: y(mark) }),
    drawn("text", { x: PRICES.left - 6, y: y(mark) + 4, "text-anchor": "end" }, figure(mark)),
  ]);
}

// Round numbers that divide a range into at most six parts.
function roundMarks(low, high) {
  const least = (high - low) / 6;
  const power = 10 ** Math.floor(Math.log10(least));
  const part = Math.max(1, [1, 2, 5, 10].map((factor) => factor * power).find((candidate) => candidate >= least));
  const marks = [];
  for (let mark = Math.ceil(low / part) * part; mark <= high; mark += part) marks.push(mark);
  return marks;
}

// The last price from step to step.
function lastPrices(at, contract, x, y) {
  let path = `M${x(0)} ${y(states[0].books[contract].last)}`;
  for (let step = 1; step <= at; step += 1) path += ` H${x(step)} V${y(states[step].books[contract].last)}`;
  return drawn("path", { class: "last", d: path });
}

// Of trades that fall on one spot one is drawn.
function trades(at, contract, x, y) {
  const spots = new Map();
  steps.slice(0, at).forEach((step, place) => {
    for (const { price, count } of pricesOf(step, contract)) {
      const spot = `${Math.round(x(place + 1))} ${price}`;
      if (!spots.has(spot)) spots.set(spot, { at: place + 1, price, count });
    }
  });
  const r = days.length > MANY_DAYS ? 2 : 5;
  return [...spots.values()].map(({ at: step, price, count }) =>
    drawn("circle", { class: "trade", cx: x(step), cy: y(price), r, "data-price": price },
      drawn("title", {}, `command ${step}: ${lots(count)} at ${figure(price)}`)));
}

function settlementPrices(at, contract, x, y) {
  const size = days.length > MANY_DAYS ? 2.5 : 6;
  const settled = steps.map((step, place) => ({ step, at: place + 1 })).slice(0, at).filter(({ step }) => step.settled);
  return settled.flatMap(({ step, at: place }) => {
    const price = step.settled[contract];
    const corners = [[0, -size], [size, 0], [0, size], [-size, 0]];
    const points = corners.map(([right, down]) => `${x(place) + right},${y(price) + down}`).join(" ");
    const title = drawn("title", {}, `day ${step.day} settles at ${figure(price)}`);
    const mark = drawn("polygon", { class: "settled", points, "data-price": price }, title);
    if (days.length > MOST_DAYS_WITH_FIGURES) return [mark];
    const below = { x: x(place) + size, y: y(price) + 3 * size, "text-anchor": "end" };
    return [mark, drawn("text", { class: "figure", ...below }, figure(price))];
  });
}

// --- The pictures of balances ---

// A small picture for each account: the opening balance in the middle, and the balance after each settlement so far.
// All have the same scale, so that what one gains can be seen to be what others lose; what lies ahead has no part in it.
function balancePictures(at) {
  const settled = steps.map((step, place) => (step.settled ? place + 1 : 0)).filter(Boolean);
  const reached = settled.filter((step) => step <= at);
  const gains = lesson.active.flatMap((account) => reached.map((step) => gain(step, account)));
  const furthest = most([1, ...gains.map(Math.abs)]);
  return lesson.active.map((account) => balancePicture(at, account, settled, furthest));
}

const gain = (step, account) => states[step].accounts[account].value - states[0].accounts[account].value;

function balancePicture(at, account, settled, furthest) {
  const width = 170, height = 92, left = 8, right = 12, top = 26, bottom = 20;
  const x = (day) => left + (day / Math.max(settled.length, 1)) * (width - left - right);
  const y = (value) => top + (1 - value / furthest) / 2 * (height - top - bottom);
  const opening = y(0);
  const points = [0, ...settled.filter((step) => step <= at)].map((step, day) => {
    const name = day ? `day ${dayOf(step)}` : "opening";
    return { name, balance: states[step].accounts[account].balance, cx: x(day), cy: y(gain(step, account)) };
  });
  const path = points.map(({ cx, cy }) => `${cx},${cy}`).join(" ");
  const lastDay = { x: width - right, y: height - 3, "text-anchor": "end" };
  const label = `Balance of account ${account} by day`;
  return drawn("svg", { viewBox: `0 0 ${width} ${height}`, role: "img", "aria-label": label },
    drawn("text", { x: left, y: 11 }, `account ${account}`),
    drawn("text", { class: "figure", x: width, y: 11, "text-anchor": "end" }, states[at].accounts[account].balance),
    drawn("line", { class: "reference", x1: left, x2: width - right, y1: opening, y2: opening }),
    drawn("text", { x: left, y: height - 3 }, "opening"),
    ...(settled.length ? [drawn("text", lastDay, `day ${dayOf(settled[settled.length - 1])}`)] : []),
    drawn("polyline", { points: path, fill: "none", stroke: colour(account), "stroke-width": 2 }),
    ...points.map((point) => balancePoint(point, account, settled.length)));
}

function balancePoint({ name, balance, cx, cy }, account, count) {
  const r = count > MANY_DAYS ? 0 : 3.5;
  const title = drawn("title", {}, `${name}: ${balance}`);
  return drawn("circle", { cx, cy, r, fill: colour(account), "data-balance": balance }, title);
}

// --- The page ---

let current = 0;
let isAsked = false; // the command of the current step is shown, and its answer is not yet
let chosen = null; // the contract asked for; otherwise that of the last command that named one

function contractAt(at) {
  for (let step = at; step > 0; step -= 1) if (steps[step - 1].contract) return String(steps[step - 1].contract);
  return contracts[0];
}

// A step that is a part of an exercise shows its command first, and every step does where that is chosen.
const isInTwo = (at) => at > 0 && at <= steps.length && (byId("answers").value === "after" || questions[at - 1].length > 0);

function go(to, toCommand = false) {
  current = Math.min(Math.max(to, 0), steps.length);
  isAsked = toCommand && current > 0;
  chosen = null;
  show();
}

function goOn() {
  if (isAsked) go(current);
  else if (current < steps.length) go(current + 1, isInTwo(current + 1));
}

function goBack() {
  if (!isAsked && isInTwo(current)) go(current, true);
  else go(current - 1);
}

// To a step of the list: an answer that has not been reached is not shown at once.
const goTo = (at) => go(at, at > reached() && isInTwo(at));

// The last step whose answer is shown.
const reached = () => (isAsked ? current - 1 : current);

function choose(contract) {
  chosen = contract;
  show();
}

function show() {
  const contract = chosen ?? contractAt(current);
  const at = reached();
  byId("words").replaceChildren(...(isAsked ? askedWords(current) : wordsOf(current)));
  byId("book").replaceChildren(...bookCard(at, contract));
  byId("accounts").replaceChildren(...accountCard(at));
  byId("trades").replaceChildren(...tradeCard(at));
  byId("prices").replaceChildren(pricePicture(at, contract));
  byId("balances").replaceChildren(...balancePictures(at));
  showWhere();
  showList();
  keepAddress();
}

function showWhere() {
  const isFirst = current === 0, isLast = current === steps.length && !isAsked;
  byId("where").textContent = isFirst
    ? `Opening, ${steps.length} steps` : `Step ${current} of ${steps.length}, day ${dayOf(current)}`;
  byId("slider").value = current;
  byId("first").disabled = byId("back").disabled = isFirst;
  byId("next").disabled = byId("last").disabled = isLast;
  document.body.dataset.step = current;
  document.body.classList.toggle("asking", isAsked);
}

// The step stands in the address, with a question mark where its answer is not shown yet, for a link or a reload. A key
// held down changes it at its first stroke and once more at the end, since browsers limit how often it may change.
const ADDRESS_PAUSE = 200;
let addressTimer, addressTime = -ADDRESS_PAUSE;
function keepAddress() {
  clearTimeout(addressTimer);
  const wait = addressTime + ADDRESS_PAUSE - performance.now();
  if (wait <= 0) writeAddress();
  else addressTimer = setTimeout(writeAddress, wait);
}

function writeAddress() {
  addressTime = performance.now();
  history.replaceState(null, "", `#${current}${isAsked ? "?" : ""}`);
}

function goToAddress() {
  const [, step, mark] = /^#(-?[\d.]+)(\??)$/.exec(location.hash) ?? [];
  go(Math.trunc(Number(step)) || 0, mark === "?");
}

// Whether answers come with their commands or after them is kept for other lessons, where the browser keeps anything.
const ANSWERS_KEY = "zelvorm answers";
function keepAnswers() {
  try {
    localStorage.setItem(ANSWERS_KEY, byId("answers").value);
  } catch { /* a browser may forbid it to a page in a file */ }
}

function chooseAnswers(value) {
  byId("answers").value = value;
  keepAnswers();
  if (isAsked && !isInTwo(current)) go(current);
}

function answersKept() {
  try {
    return localStorage.getItem(ANSWERS_KEY) === "after" ? "after" : "with";
  } catch {
    return "with";
  }
}

// The list names every command, but tells an answer only once it has been reached.
function showList() {
  for (const button of byId("list").querySelectorAll("button")) {
    const at = Number(button.dataset.step);
    button.classList.toggle("later", at > current);
    button.classList.toggle("refused", at > 0 && at <= reached() && steps[at - 1].code !== 0);
    if (at !== current) button.removeAttribute("aria-current");
    else {
      button.setAttribute("aria-current", "step");
      bringToMiddle(button);
    }
  }
}

// The current command stands in the middle of the list, so that the next ones are seen. The list alone is scrolled,
// never the page.
function bringToMiddle(button) {
  const list = byId("list");
  const above = button.offsetTop - list.offsetTop;
  list.scrollTop = above - (list.clientHeight - button.offsetHeight) / 2;
}

function listEntries() {
  const entries = [entry(0, "The opening")];
  for (const { day, from, to } of days) {
    entries.push(element("li", { class: "day" }, `Day ${day}`));
    for (let at = from + 1; at <= to; at += 1) entries.push(entry(at, steps[at - 1].heading));
  }
  return entries;
}

function entry(at, text) {
  const number = element("span", { class: "number" }, at ? String(at) : "");
  const button = element("button", { "data-step": at, tabindex: -1 }, number, text);
  button.addEventListener("click", () => goTo(at));
  return element("li", {}, button);
}

// Page Down and Page Up are what a presenter's remote control sends.
const KEYS = {
  ArrowRight: goOn,
  PageDown: goOn,
  ArrowLeft: goBack,
  PageUp: goBack,
  Home: () => go(0),
  End: () => go(steps.length),
  a: () => chooseAnswers(byId("answers").value === "with" ? "after" : "with"),
};

function onKey(event) {
  if (event.ctrlKey || event.altKey || event.metaKey || event.target.tagName === "SELECT") return;
  const act = KEYS[event.key] ?? (contracts.includes(event.key) ? () => choose(event.key) : null);
  if (!act) return;
  event.preventDefault();
  act();
}

// --- On paper: the steps one under another, and the pictures at the end ---

// The steps that are printed, by the choice.
function stepsOnPaper(choice) {
  if (choice === "all") return [...states.keys()];
  if (choice === "step") return [current];
  const { from, to } = days.find(({ day }) => day === dayOf(current)) ?? { from: 0, to: 0 };
  return Array.from({ length: to - from }, (_, place) => from + 1 + place);
}

function fillHandout() {
  const choice = byId("paper").value;
  const wanted = stepsOnPaper(choice);
  const last = wanted[wanted.length - 1];
  byId("handout").replaceChildren(
    ...(wanted[0] === 0 ? [] : [element("h1", {}, lesson.title)]),
    ...(choice === "all" || pagesOfAll <= MANY_PAGES ? [] : [note(notAllWords(choice))]),
    ...wanted.map(handoutStep),
    handoutPictures(last));
}

function notAllWords(choice) {
  const part = choice === "step" ? "This is one step" : "This is one day";
  return `${part} of ${figure(steps.length)} commands. The whole lesson takes about ${figure(pagesOfAll)} pages: choose it`
    + " beside \"On paper\" if you want it.";
}

function handoutPictures(last) {
  const prices = contracts.map((contract) =>
    element("div", {}, heading(`Prices of contract ${contract}`), pricePicture(last, contract)));
  const balances = element("div", { class: "balances" }, ...balancePictures(last));
  return element("section", { class: "wide pictures" },
    element("div", { class: "prices" }, ...prices), heading("Balances by day"), balances);
}

// How many pages of A4 the whole lesson takes, by the height of some of its steps as they are laid out on paper.
const PAGE_WIDTH = "180mm", PAGE_HEIGHT_MM = 267, MEASURED_STEPS = 60, SPACE_LOST = 1.06;
function countPages() {
  const every = Math.ceil(states.length / MEASURED_STEPS);
  const measured = [...states.keys()].filter((at) => at % every === 0);
  const paper = element("div", { class: "handout", style: `width: ${PAGE_WIDTH}` }, ...measured.map(handoutStep));
  const pictures = element("div", { class: "handout", style: `width: ${PAGE_WIDTH}` }, handoutPictures(steps.length));
  const page = element("div", { style: `height: ${PAGE_HEIGHT_MM}mm` });
  const desk = element("div", { class: "desk" }, paper, pictures, page);
  document.documentElement.classList.add("measuring");
  document.body.append(desk);
  const all = paper.offsetHeight * (states.length / measured.length) + pictures.offsetHeight;
  const pages = Math.max(1, Math.ceil((all / page.offsetHeight) * SPACE_LOST));
  desk.remove();
  document.documentElement.classList.remove("measuring");
  return pages;
}

// Choices with their sizes. A lesson of many pages prints the step that is shown unless all of it is asked for.
function offerPaper() {
  const about = pagesOfAll === 1 ? "1 page" : `${figure(pagesOfAll)} pages`;
  byId("paper").replaceChildren(
    element("option", { value: "all" }, `all, ${about}`),
    ...(days.length > 1 ? [element("option", { value: "day" }, "this day")] : []),
    element("option", { value: "step" }, "this step"));
  byId("paper").value = pagesOfAll > MANY_PAGES ? "step" : "all";
}

// A step's words, and beside them what it changed: the orders of a book, accounts.
function handoutStep(at) {
  const words = element("div", {}, ...wordsOf(at, true));
  const isChanged = at === 0 || Object.keys(steps[at - 1].accounts).length > 0;
  const beside = [...changedBooks(at), ...(isChanged ? accountCard(at) : [])];
  if (!beside.length) return element("section", { class: "wide", "data-step": at }, words);
  const layout = isSettlement(at) ? "wide long" : false;
  return element("section", { class: layout, "data-step": at }, words, element("div", {}, ...beside));
}

// The books whose orders a step changed, by the prices with orders alone. A settlement empties all.
function changedBooks(at) {
  if (at === 0 || isSettlement(at)) return [];
  const orders = (step, contract) => [states[step].books[contract].sells, states[step].books[contract].buys];
  const changed = Object.keys(steps[at - 1].books).filter((contract) =>
    JSON.stringify(orders(at - 1, contract)) !== JSON.stringify(orders(at, contract)));
  return changed.flatMap((contract) => {
    const levels = new Set(orders(at, contract).flat().map(([price]) => price));
    const prices = [...levels].sort((one, other) => other - one);
    const rows = prices.length ? ladder(at, contract, prices) : element("p", { class: "none" }, "No orders rest.");
    return [heading(`Book of contract ${contract}`), rows];
  });
}

// --- Start ---

byId("name").textContent = lesson.title;
byId("answers").value = answersKept();
byId("list").querySelector("ol").replaceChildren(...listEntries());
byId("slider").max = steps.length;
byId("slider").addEventListener("input", (event) => goTo(Number(event.target.value)));
byId("answers").addEventListener("change", (event) => chooseAnswers(event.target.value));
byId("first").addEventListener("click", KEYS.Home);
byId("back").addEventListener("click", KEYS.ArrowLeft);
byId("next").addEventListener("click", KEYS.ArrowRight);
byId("last").addEventListener("click", KEYS.End);
addEventListener("keydown", onKey);
addEventListener("beforeprint", fillHandout);
addEventListener("afterprint", () => byId("handout").replaceChildren());
addEventListener("hashchange", goToAddress);
const pagesOfAll = countPages();
offerPaper();
goToAddress();
