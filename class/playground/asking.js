// The page asks the program for one thing at a time, and for the newest text next.
"use strict";
const BUSY = 250, SLOW = 1000, WAIT = "busy ..";
const pending = {asked: null, waiting: [], since: 0};  // of what waits the newest of each kind
let number = 0, sent = null;                       // the text that the worker has

const isOfText = ({act}) => act === "script" || act === ASSEMBLY;

// Asks for something. What is under way is waited for, and given up where it takes too long
function ask(what) {
  pending.waiting = [...pending.waiting.filter(other => isOfText(what) ? !isOfText(other) : other.act !== what.act), what];
  if (pending.asked && performance.now() - pending.since > SLOW && what.act !== "check") {
    sent = pending.asked = null;
    program.stop();
  }
  if (!pending.asked) askNext();
}

async function askNext() {
  const what = pending.waiting.shift();
  if (!what) return;
  const asked = {...what, number: ++number}, told = {...what};
  Object.assign(pending, {asked, since: performance.now()});
  if (isOfText(told)) {
    const is = [told.act, told.steps, told.seed, typeof told.text].join(" ");
    if (sent && sent.is === is && sent.text === told.text) delete told.text; else sent = {is, text: told.text};
  }
  setTimeout(() => { if (pending.asked === asked) say(WAIT); }, BUSY);
  const last = await program.ask(told, inner => { if (pending.asked === asked) heard(inner, asked, "first"); });
  if (pending.asked !== asked) return;
  pending.asked = null;
  heard(last, asked, "shown");
  document.body.dataset.answered = asked.number;
  askNext();
}

function heard(told, asked, name) {
  parts[told.part](told, asked);
  document.body.dataset[name] = (performance.now() - pending.since).toFixed(1);
}
