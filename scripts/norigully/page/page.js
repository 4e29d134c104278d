// The page: what is seen and done. All text goes in as text nodes, so nothing that a test printed becomes an element.
const $ = id => document.getElementById(id);
const BLOCK = 200, LINE = 20, NEAR = "1500px";
const report = $("report"), narrow = matchMedia("(max-width: 800px)");
// How many blocks are in the page at a time: browsers scroll no further than some 800,000 lines.
let most = 2500, base = 0;
let shown = { generation: 0, count: 0, lines: [], tests: new Map() }, hits = [], at = -1, marked = -1, searches = 0;

// Questions to the worker, and its responses.
const worker = new Worker(URL.createObjectURL(new Blob([$("worker").textContent], { type: "text/javascript" })));
worker.onerror = () => { $("summary").textContent = "This run cannot be shown: the browser runs no worker here"; };
const waiting = new Map();
let questions = 0;
const ask = (what, words = {}) => new Promise((resolve, reject) => {
  waiting.set(++questions, { resolve, reject });
  worker.postMessage({ what, number: questions, ...words });
});
worker.onmessage = ({ data }) => {
  const { resolve, reject } = waiting.get(data.number);
  waiting.delete(data.number);
  if (data.fault === undefined) resolve(data.result); else reject(new Error(data.fault));
};

// The report is in blocks of lines. A block has its lines while it is near what is seen, and else its height alone.
const blocks = () => report.children;
const fill = async block => {
  const number = Number(block.dataset.number), { generation } = shown;
  const lines = block.filled ? null : await ask("block", { generation, at: number });
  if (!lines || block.filled || !block.isConnected) return;
  block.filled = true;
  block.replaceChildren(...lines.map((pieces, k) => {
    const line = document.createElement("div"), test = shown.tests.get(number * BLOCK + k);
    put(line, pieces);
    if (test !== undefined) line.append(toolsOf(test));
    return line;
  }));
  block.style.height = "";
  mark(block);
};
const empty = (block, height) => {
  if (!block.filled || block.contains(document.activeElement)) return;
  block.filled = false;
  block.style.height = `${height}px`;
  block.replaceChildren();
};
const seen = new IntersectionObserver(all => {
  for (const { target, isIntersecting, boundingClientRect } of all) {
    if (isIntersecting) fill(target); else empty(target, boundingClientRect.height);
  }
}, { rootMargin: `${NEAR} 0px` });

const firstHitFrom = line => {
  let low = 0, high = hits.length;
  while (low < high) {
    const middle = (low + high) >> 1;
    if (hits[middle] < line) low = middle + 1; else high = middle;
  }
  return low;
};
const mark = block => {
  if (!block.filled) return;
  const first = Number(block.dataset.number) * BLOCK;
  for (const line of block.querySelectorAll(":scope > [class]")) {
    line.removeAttribute("class");
    for (const button of line.querySelectorAll("button")) button.tabIndex = -1;
  }
  for (let k = firstHitFrom(first); k < hits.length && hits[k] < first + BLOCK; k++) {
    block.children[hits[k] - first].className = "hit";
  }
  const line = block.children[marked - first];
  if (!line) return;
  line.className = "at";
  for (const button of line.querySelectorAll("button")) button.tabIndex = 0;
};
const markAll = () => { for (const block of blocks()) mark(block); };
// Shows a line in the middle; the focus may go along.
const goTo = async (line, hasFocus = false) => {
  const number = Math.floor(line / BLOCK), { generation } = shown;
  marked = line;
  if (number < base || number >= base + most) layOut(Math.floor(number / most) * most);
  const block = blocks()[number - base];
  if (!block) return;
  if (!block.filled) block.scrollIntoView();
  await fill(block);
  const found = block.children[line % BLOCK];
  // A later call takes its place.
  if (generation !== shown.generation || marked !== line || !found) return;
  found.scrollIntoView({ block: "center" });
  markAll();
  if (!hasFocus) return;
  found.tabIndex = -1;
  found.focus({ preventScroll: true });
};

const layOut = first => {
  base = first;
  seen.disconnect();
  const count = Math.min(most, Math.ceil(shown.count / BLOCK) - base);
  report.replaceChildren(...Array.from({ length: count }, (_, k) => {
    const block = document.createElement("div");
    block.dataset.number = base + k;
    block.style.height = `${Math.min(BLOCK, shown.count - (base + k) * BLOCK) * LINE}px`;
    seen.observe(block);
    return block;
  }));
  showRest($("earlier"), 0, base * BLOCK);
  showRest($("later"), (base + count) * BLOCK, shown.count);
};
const showRest = (button, from, to) => {
  button.hidden = from >= to;
  button.textContent = `Lines ${(from + 1).toLocaleString("en")} to ${to.toLocaleString("en")}`;
};

const chosen = () => ({ level: $("level").value, failure: $("failure").value, success: $("success").value });
const show = async () => {
  const result = await ask("show", { choice: chosen() });
  if (result.generation < shown.generation) return;
  shown = { ...result, tests: new Map(result.lines.map((line, test) => [line, test])) };
  [hits, at, marked, paper] = [[], -1, -1, null];
  // Until here the page shows the run's own report as text.
  [$("text").hidden, $("layout").hidden] = [true, false];
  layOut(0);
  $("summary").replaceChildren();
  if (!result.summary.length) $("summary").textContent = shown.count ? "The run did not end" : "The report is empty";
  else {
    result.summary[0][0] = result.summary[0][0].trimStart();
    put($("summary"), result.summary);
  }
  for (const link of links()) link.classList.toggle("unseen-here", shown.lines[link.dataset.test] < 0);
  await search(false);
  await takePaper();
};

const search = async go => {
  const number = ++searches, word = $("find").value, found = word ? await ask("find", { word }) : [];
  if (number !== searches) return;
  [hits, at] = [found, found.length ? 0 : -1];
  if (word) marked = -1;
  showFound();
  markAll();
  if (go && hits.length) await goTo(hits[0]);
};
const showFound = () => {
  const [now, count] = [at + 1, hits.length].map(it => it.toLocaleString("en"));
  $("found").textContent = $("find").value ? `${now} of ${count}` : "";
};
const step = async by => {
  if (!hits.length) return;
  at = (at + by + hits.length) % hits.length;
  showFound();
  await goTo(hits[at]);
};

// On a narrow screen the options and the tests are folded away behind buttons.
const fold = (panel, isFolded) => {
  panel.classList.toggle("open", !isFolded);
  document.querySelector(`[aria-controls=${panel.id}]`).setAttribute("aria-expanded", String(!isFolded));
};
for (const button of document.querySelectorAll(".folds button")) {
  button.addEventListener("click", () => {
    const isOpen = button.getAttribute("aria-expanded") === "true";
    const own = button.getAttribute("aria-controls");
    for (const panel of [$("options"), $("tests")]) fold(panel, panel.id !== own || isOpen);
  });
}
for (const id of ["level", "failure", "success"]) $(id).addEventListener("change", show);
$("wrap").addEventListener("change", () => report.classList.toggle("wrap", $("wrap").checked));
$("theme").addEventListener("change", () => { document.documentElement.dataset.theme = $("theme").value; });
$("find").addEventListener("input", () => search(true));
document.querySelector("form").addEventListener("submit", event => event.preventDefault());
$("find").addEventListener("keydown", event => {
  if (event.key === "Enter") { event.preventDefault(); step(event.shiftKey ? -1 : 1); }
  if (event.key === "Escape") { $("find").value = ""; search(false); report.focus(); }
});
$("skip").addEventListener("click", event => { event.preventDefault(); report.focus(); });
$("earlier").addEventListener("click", () => goTo(base * BLOCK - 1, true));
$("later").addEventListener("click", () => goTo((base + most) * BLOCK, true));
$("up").addEventListener("click", () => step(-1));
$("down").addEventListener("click", () => step(1));
