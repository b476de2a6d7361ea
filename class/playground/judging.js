// An exercise, and what the judge says of the text.
"use strict";
const exerciseOf = () => examples.find(({name, exercise}) => exercise && name === by("choice").value);
const isPart = () => Boolean((exerciseOf() || {}).isPart);
const chosenExercise = () => (exerciseOf() || {}).exercise;

// What the chosen exercise asks for, beside the text; with the numbers of the student who is named
function drawExercise() {
  const found = exerciseOf();
  by("exercise").hidden = !found;
  fill("verdict");
  if (!found) return;
  drawTask(found.task);
  if (valueOf("student")) ask({act: "retell", name: found.exercise, text: found.task, seed: valueOf("student")});
}

function drawTask(text) { fill("task", make("h2", chosenExercise()), ...taskOf(text)); }

function judgeText() {
  const found = exerciseOf();
  if (!found || large) return;
  by("kind").value = found.kind;
  ask({act: "judge", name: found.exercise, text: by("text").value, seed: valueOf("student")});
}

function drawVerdict(told) {
  fill("verdict", make("h2", told.name + ": " + headOf(told)), ...verdictOf(told));
  say(...inShort(told));
}

// The verdict in a few words, and whether they are about a text that isn't judged
function inShort(told) {
  if (told.cant) return [told.name + " can't be judged", true];
  if (told.refused) return [told.name + " isn't judged: line " + told.refused + " is refused", true];
  return [areAllReached(told) ? "all goals are reached" : headOf(told), false];
}
