// Colours of a test's own get a lighter or darker ink where they would not read: 4.5 to 1, as WCAG counts contrast.
const READS = 4.5, BLACK = "rgb(0,0,0)", WHITE = "rgb(255,255,255)";
// The lightest and the darkest that a line is marked with.
const ON_LIGHT = "rgb(255,235,153)", ON_DARK = "rgb(55,51,26)";
const channels = colour => colour.match(/\d+/g).map(Number);
const luminance = colour => {
  const linear = it => (it <= 10 ? it / 255 / 12.92 : ((it / 255 + 0.055) / 1.055) ** 2.4);
  const [red, green, blue] = channels(colour).map(linear);
  return 0.2126 * red + 0.7152 * green + 0.0722 * blue;
};
const contrast = (one, other) => {
  const [low, high] = [luminance(one), luminance(other)].sort((a, b) => a - b);
  return (high + 0.05) / (low + 0.05);
};
const ink = back => (contrast(BLACK, back) >= contrast(WHITE, back) ? BLACK : WHITE);
const mixed = (one, other, share) => {
  const to = channels(other);
  return `rgb(${channels(one).map((it, k) => Math.round(it + (to[k] - it) * share))})`;
};
const known = new Map();
const readable = (fore, back) => {
  const key = `${fore} ${back}`;
  if (known.size > 5000) known.clear();
  if (!known.has(key)) {
    const to = ink(back), share = [0, 0.2, 0.4, 0.6, 0.8].find(it => contrast(mixed(fore, to, it), back) >= READS);
    known.set(key, mixed(fore, to, share ?? 1));
  }
  return known.get(key);
};

const NAMED = /^\d$/;
// What a colour is on the page is said by its style sheet for the eight that have names.
const put = (parent, pieces) => {
  for (const [text, on, fore, back] of pieces) {
    if (!on && !fore && !back) { parent.append(text); continue; }
    const span = document.createElement("span"), isOwn = fore && !NAMED.test(fore);
    const names = [...on, NAMED.test(fore) && `c${fore}`, isOwn && !back && "own", NAMED.test(back) && `g${back}`];
    span.className = names.filter(Boolean).join(" ");
    if (back && !NAMED.test(back)) {
      span.style.background = back;
      span.style.color = isOwn ? readable(fore, back) : ink(back);
    } else if (isOwn) {
      span.style.setProperty("--on-light", readable(fore, ON_LIGHT));
      span.style.setProperty("--on-dark", readable(fore, ON_DARK));
    }
    span.textContent = text;
    parent.append(span);
  }
};
