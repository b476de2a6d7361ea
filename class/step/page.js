// Steps through the states that the page has.
"use strict";
data = JSON.parse(document.getElementById("data").textContent);

function drawLines() {
  fill("lines", ...data.steps.map((now, k) => {
    const made = button("", () => go(k), k === step ? "chosen" : "other");
    made.append(now.told + (now.did ? ": " + now.did : "") + "  ", make("span.to-answer", now.answer ? "\u2192 " + now.answer : ""));
    return make("li", made);
  }));
}

function draw() {
  drawViews();
  by("slider").value = step;
  fill("count", (step + 1) + " of " + data.steps.length);
  by("first").disabled = by("back").disabled = step === 0;
  by("on").disabled = by("last").disabled = step === data.steps.length - 1;
  document.querySelectorAll("#lines button").forEach((line, k) => line.classList.toggle("chosen", k === step));
  scrollInside("#lines", "#lines button.chosen");
}

function go(k) {
  step = Math.max(0, Math.min(data.steps.length - 1, k));
  draw();
  try { history.replaceState(null, "", "#" + (step + 1)); } catch (error) { /* a page without an address */ }
}
function nextWhere(is) {
  const found = data.steps.findIndex((now, k) => k > step && is(now, data.steps[k - 1]));
  if (found >= 0) go(found);
}

const keys = {
  ArrowRight: () => go(step + 1), ArrowLeft: () => go(step - 1), f: () => go(step + 10), b: () => go(step - 10),
  Home: () => go(0), End: () => go(data.steps.length - 1), n: () => nextPartition(1), p: () => nextPartition(-1),
  j: () => nextPage(1), k: () => nextPage(-1), ".": () => chooseFrame(shownFrame() + 1), ",": () => chooseFrame(shownFrame() - 1),
  c: () => nextWhere((now, before) => now.tree !== before.tree), l: () => nextWhere(now => now.answer),
};
if (!isRun()) delete keys.l;                         // each line of a script has an answer
document.querySelectorAll(isRun() ? ".of-script" : ".of-run").forEach(part => part.remove());
document.addEventListener("keydown", event => {
  if (event.ctrlKey || event.altKey || event.metaKey || !Object.hasOwn(keys, event.key)) return;
  event.preventDefault();
  keys[event.key]();
});
by("first").addEventListener("click", () => go(0));
by("back").addEventListener("click", () => go(step - 1));
by("on").addEventListener("click", () => go(step + 1));
by("last").addEventListener("click", () => go(data.steps.length - 1));
by("slider").max = data.steps.length - 1;
by("slider").addEventListener("input", () => go(Number(by("slider").value)));
window.addEventListener("hashchange", () => go(Number(location.hash.slice(1)) - 1 || 0));
drawLines();
makeGrid();
go(Number(location.hash.slice(1)) - 1 || 0);
