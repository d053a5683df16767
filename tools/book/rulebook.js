// The rulebook: sentences that open, a part at a time, and the search. Without this script all parts stand one under another,
// and links lead from each to the others.
"use strict";

const byId = (id) => document.getElementById(id);
const PARTS = [...document.querySelectorAll("main > .part")].map(({ id }) => id);
// So many results of each kind are shown; what is more is counted.
const MOST_FOUND = 40;

// --- Parts ---

function showPart(id) {
  for (const part of PARTS) byId(part).classList.toggle("shown", part === id || (id === "rules" && part === "reading"));
  byId("found").hidden = true;
  for (const link of document.querySelectorAll("header nav a")) {
    if (link.hash === `#${id}`) link.setAttribute("aria-current", "page");
    else link.removeAttribute("aria-current");
  }
}

// The part that an element stands in.
const partOf = (node) => node.closest(".part")?.id ?? "rules";

// --- What stands behind a sentence ---

function openRows(ids) {
  closePanel();
  const button = document.createElement("button");
  button.className = "close";
  button.title = "Close (Escape)";
  button.textContent = "\u00d7";
  button.addEventListener("click", closePanel);
  byId("panel").replaceChildren(button, ...ids.map(behind));
  byId("panel").hidden = false;
  byId("panel").scrollTop = 0;
  byId("page").classList.remove("wide");
  for (const id of ids) for (const piece of piecesOf(id)) piece.classList.add("open");
}

// The words of a row; other rows that quote some of them part them.
const piecesOf = (id) => document.querySelectorAll(`.sentence[data-rows~="${id}"]`);

function closePanel() {
  for (const open of document.querySelectorAll(".sentence.open")) open.classList.remove("open");
  byId("panel").hidden = true;
  byId("page").classList.add("wide");
}

// A copy of what stands behind a row, with each thing that it opens in the place of the link to it.
function behind(id) {
  const copy = byId(`behind-${id}`).cloneNode(true);
  copy.removeAttribute("id");
  for (const opens of copy.querySelectorAll(".opens")) {
    const target = byId(opens.querySelector("a").hash.slice(1));
    if (target) opens.after(shortened(target));
  }
  return copy;
}

// A table of cases stands with its focus alone; a decision and a lesson fold.
function shortened(target) {
  const copy = target.cloneNode(true);
  copy.removeAttribute("id");
  const kind = target.id.split("-")[0];
  const title = copy.querySelector("h3");
  const link = document.createElement("a");
  link.href = `#${target.id}`;
  link.append(...title.childNodes);
  title.replaceChildren(link);
  if (kind === "case") for (const group of copy.querySelectorAll(".group")) group.remove();
  if (kind === "decision" || kind === "lesson") fold(copy, title);
  return copy;
}

function fold(copy, title) {
  const details = document.createElement("details");
  const summary = document.createElement("summary");
  summary.append(title.textContent);
  details.append(summary, ...[...copy.children].filter((child) => child !== title));
  copy.replaceChildren(details);
}

// --- Search ---

const sentences = [...document.querySelectorAll(".sentence[id]")];
const articles = [...document.querySelectorAll("main article")];
const KINDS = {
  definition: "Definitions", law: "Laws", promise: "Promises", case: "Worked cases", edit: "Wrong engines",
  decision: "Decisions", lesson: "Lessons",
};

function search(text) {
  const words = text.toLowerCase().split(/\s+/).filter(Boolean);
  byId("found").hidden = !words.length;
  if (!words.length) return showPart("rules");
  closePanel();
  scrollTo(0, 0);
  for (const part of PARTS) byId(part).classList.remove("shown");
  const has = (node) => words.every((word) => lower(node).includes(word));
  const blocks = [...results("Sentences", sentences.filter(has), (node) => sentenceResult(node, words))];
  for (const [kind, name] of Object.entries(KINDS)) {
    blocks.push(...results(name, articles.filter((node) => node.id.startsWith(`${kind}-`) && has(node)), articleResult));
  }
  byId("found").replaceChildren(...(blocks.length ? blocks : [paragraph("Nothing has all of these words.")]));
}

const texts = new Map();
function lower(node) {
  if (!texts.has(node)) texts.set(node, node.textContent.toLowerCase());
  return texts.get(node);
}

function results(name, nodes, shown) {
  if (!nodes.length) return [];
  const heading = document.createElement("h2");
  heading.textContent = `${name}: ${nodes.length}`;
  const more = nodes.length - MOST_FOUND;
  return [heading, ...nodes.slice(0, MOST_FOUND).map(shown), ...(more > 0 ? [paragraph(`and ${more} more`)] : [])];
}

function sentenceResult(node, words) {
  const line = paragraph("");
  const copy = node.cloneNode(true);
  copy.removeAttribute("id");
  for (const text of textsIn(copy)) markWords(text, words);
  line.append(copy);
  return line;
}

function textsIn(node) {
  const walker = document.createTreeWalker(node, NodeFilter.SHOW_TEXT), found = [];
  while (walker.nextNode()) found.push(walker.currentNode);
  return found;
}

function markWords(text, words) {
  const pattern = new RegExp(`(${words.map((word) => word.replace(/[.*+?^${}()|[\]\\]/g, "\\$&")).join("|")})`, "i");
  const parts = text.data.split(pattern);
  if (parts.length === 1) return;
  text.replaceWith(...parts.map((part, place) => {
    if (place % 2 === 0) return part;
    const mark = document.createElement("mark");
    mark.append(part);
    return mark;
  }));
}

function articleResult(node) {
  const link = document.createElement("a");
  link.href = `#${node.id}`;
  link.textContent = node.querySelector("h3").firstChild.textContent.trim();
  const line = paragraph("");
  line.append(link);
  const words = node.querySelector("p:not(.back)");
  if (words) line.append(` ${words.textContent.slice(0, 160)}`);
  return line;
}

function paragraph(text) {
  const node = document.createElement("p");
  node.append(text);
  return node;
}

// --- Addresses and keys ---

function goToAddress() {
  const id = decodeURIComponent(location.hash.slice(1));
  const target = id && byId(id);
  if (!target) return showPart("rules");
  showPart(PARTS.includes(id) ? id : partOf(target));
  const row = target.matches(".sentence") ? target.dataset.rows.split(" ") : byId(`behind-${id}`) ? [id] : null;
  if (row) openRows(row);
  target.scrollIntoView({ block: PARTS.includes(id) ? "start" : "center" });
}

// A sentence chosen is an address; chosen once more it closes.
function choose(sentence) {
  if (sentence.classList.contains("open")) {
    closePanel();
    return;
  }
  const ids = sentence.dataset.rows.split(" ");
  history.replaceState(null, "", `#${ids[0]}`);
  openRows(ids);
}

document.addEventListener("click", (event) => {
  const sentence = event.target.closest(".sentence");
  if (sentence && !event.target.closest("a")) choose(sentence);
});

addEventListener("keydown", (event) => {
  if (event.ctrlKey || event.altKey || event.metaKey) return;
  const isField = event.target.tagName === "INPUT";
  if (event.key === "/" && !isField) {
    event.preventDefault();
    byId("search").focus();
  } else if (event.key === "Escape") {
    closePanel();
    if (isField) {
      event.target.value = "";
      search("");
    }
  } else if ((event.key === "Enter" || event.key === " ") && event.target.matches?.(".sentence")) {
    event.preventDefault();
    choose(event.target);
  }
});

byId("search").addEventListener("input", (event) => search(event.target.value));
addEventListener("hashchange", goToAddress);
document.documentElement.classList.add("scripted");
closePanel();
goToAddress();
