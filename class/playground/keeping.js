// What the browser keeps for the pages, and what the address of the playground holds.
"use strict";
const KEPT = "the texts of the page of pip";       // a text of one's own, by "of ", and by "of NAME" one for each exercise

function works() {
  try { return JSON.parse(localStorage.getItem(KEPT)) || {}; } catch (error) { return {}; }
}

// Keeps a text; answers whether the browser does
function keepWork(place, work, more = {}) {
  try { localStorage.setItem(KEPT, JSON.stringify({...works(), ...more, ["of " + place]: work})); } catch (error) { return false; }
  return true;
}

// A text in an address: its kind, and its bytes in the letters of base64 that an address may have

function packed(text) {
  const bytes = Array.from(new TextEncoder().encode(text), byte => String.fromCharCode(byte)).join("");
  return btoa(bytes).replaceAll("+", "-").replaceAll("/", "_").replace(/=+$/, "");
}
function unpacked(packed) {
  const bytes = atob(packed.replaceAll("-", "+").replaceAll("_", "/"));
  return new TextDecoder("utf-8", {fatal: true}).decode(Uint8Array.from(bytes, letter => letter.charCodeAt(0)));
}
