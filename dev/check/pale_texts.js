// Each text whose contrast to its background is too small: its element, what it says, and the contrast. A hatched
// background counts with its stripes, too. What can't be used needs none.
(least => {
  const parse = text => (text.match(/[\d.]+/g) || []).map(Number);
  const light = colour => colour.map(x => x / 255).map(x => x <= .03928 ? x / 12.92 : ((x + .055) / 1.055) ** 2.4)
    .reduce((sum, x, k) => sum + x * [.2126, .7152, .0722][k], 0);
  const ratio = (a, b) => (Math.max(light(a), light(b)) + .05) / (Math.min(light(a), light(b)) + .05);
  const backgrounds = x => {
    const style = getComputedStyle(x), colour = parse(style.backgroundColor);
    const isClear = colour.length === 4 && colour[3] === 0;
    const found = !isClear ? [colour.slice(0, 3)] : x.parentElement ? backgrounds(x.parentElement) : [[255, 255, 255]];
    return style.backgroundImage === "none" ? found : found.concat(found.map(c => c.map(v => .65 * v + .35 * 128)));
  };
  const found = [];
  for (const x of document.querySelectorAll("body *")) {
    const text = [...x.childNodes].filter(node => node.nodeType === 3).map(node => node.textContent.trim()).join("");
    if (!text || !x.getClientRects().length || x.disabled || x.closest("noscript, script, style")) continue;
    const colour = parse(getComputedStyle(x).color).slice(0, 3);
    const worst = Math.min(...backgrounds(x).map(c => ratio(colour, c)));
    if (worst < least) found.push(x.tagName + "." + x.className + " '" + text.slice(0, 30) + "': " + worst.toFixed(2));
  }
  return found.join("; ");
})
