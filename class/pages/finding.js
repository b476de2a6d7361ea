// The search in the documents. Its index, index.js, is loaded when one begins to search.
"use strict";
{
const MOST = 12, WORD = /[a-z0-9_]{2,}/g;
const field = document.getElementById("search"), list = document.getElementById("found");
let words = null;

const stem = word => word.length > 4 ? word.replace(/(ing|ed|es|s|e)$/, "") : word;
const share = (word, part) => word === part ? 9 : word.startsWith(part) ? 3 : word.startsWith(stem(part)) ? 1 : 0;

// Of each section that has a word like this one how well it fits
function scoresOf(part) {
  const scores = new Map();
  for (const word of words) {
    const weight = share(word, part);
    for (const place of weight ? window.index.words[word] : []) scores.set(place >> 5, (scores.get(place >> 5) || 0) + weight * (place & 31));
  }
  return scores;
}

// The sections that have all words, the best first
function matches(text) {
  const scores = (text.toLowerCase().match(WORD) || []).map(scoresOf);
  if (!scores.length) return [];
  const all = [...scores[0].keys()].filter(at => scores.every(of => of.has(at))).map(at => [scores.reduce((sum, of) => sum + of.get(at), 0), at]);
  return all.sort(([a, x], [b, y]) => b - a || x - y).slice(0, MOST).map(([, at]) => window.index.sections[at]);
}

async function look() {
  const text = field.value.trim();
  list.hidden = !text;
  if (!text) return;
  if (!window.index) await loaded("index.js");
  words = words || Object.keys(window.index.words);
  const found = matches(text);
  list.replaceChildren(...found.map(([page, anchor, title, chapter, begins]) => {
    const made = make("a", make("b", title), make("small", " " + chapter), make("span", begins));
    made.href = page + (anchor ? "#" + anchor : "");
    return made;
  }), ...(found.length ? [] : [make("p", "Nothing has all these words.")]));
}

field.addEventListener("input", look);
field.addEventListener("keydown", event => {
  const first = list.querySelector("a");
  if (event.key === "Enter" && first) first.click();
  if (event.key === "ArrowDown" && first) { event.preventDefault(); first.focus(); }
  if (event.key === "Escape") { field.value = ""; list.hidden = true; }
});
list.addEventListener("keydown", event => {
  const to = {ArrowDown: "nextElementSibling", ArrowUp: "previousElementSibling"}[event.key];
  if (event.key === "Escape") { list.hidden = true; field.focus(); }
  if (!to) return;
  event.preventDefault();
  (document.activeElement[to] || field).focus();
});
list.addEventListener("click", event => { if (event.target.closest("a")) list.hidden = true; });
document.addEventListener("keydown", event => {
  if (event.key === "/" && !event.target.closest("input, textarea, select")) { event.preventDefault(); field.focus(); }
});
}
