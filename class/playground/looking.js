// The views of class/step for a page with the program: they draw the state that the worker told. `act`, of the page, asks for it again.
"use strict";

function takeState(state) {
  const frames = data.frames;
  data = {...state, ...called()};
  step = data.steps.length - 1;
  if (frames !== data.frames) makeGrid();
  if (chosenFrame !== null && chosenFrame >= data.frames) chosenFrame = null;
  drawViews();
}

// What the views have of the documents
const called = () => ({calls: facts.calls, statuses: facts.statuses.map(([name]) => name)});

// The words of the chosen frame are asked for where they weren't looked at
function lookAgain() {
  const frame = shownFrame();
  if (data.looked.includes(frame)) return;
  fill("words", "..");
  act();
}

function draw() {
  drawViews();
  lookAgain();
}

const keysOfViews = {
  n: () => nextPartition(1), p: () => nextPartition(-1), j: () => nextPage(1), k: () => nextPage(-1),
  ".": () => chooseFrame(shownFrame() + 1), ",": () => chooseFrame(shownFrame() - 1),
};
