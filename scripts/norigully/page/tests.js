// The tests that failed, that were flaky and that took longest: a list of links for each, and what can be copied.
let tests = [], failures = [];
const TITLES = {
  failed: count => (count ? `${count.toLocaleString("en")} failed` : "No failures"),
  flaky: count => `${count.toLocaleString("en")} flaky`,
  slowest: () => "Slowest",
};
const links = () => $("tests").querySelectorAll("a");
const element = (tag, className = "", text = "") =>
  Object.assign(document.createElement(tag), { className, textContent: text });

// The address has the name of a test, and can be sent.
const nameOf = ({ binary, name }) => `${binary} ${name}`;
const addressOf = test => `#${encodeURIComponent(nameOf(test))}`;
const addressed = () => {
  try {
    const name = decodeURIComponent(location.hash.slice(1));
    return tests.findIndex(test => nameOf(test) === name);
  } catch { return -1; }
};

const linkTo = (number, hasTime) => {
  const item = element("li"), link = element("a"), test = tests[number];
  link.append(element("small", "", test.binary), element("span", "", test.name));
  if (hasTime) link.firstChild.append(element("b", "", test.time));
  link.href = addressOf(test);
  link.dataset.test = number;
  link.tabIndex = -1;
  item.append(link);
  return item;
};
const list = (title, numbers) => {
  const part = element("section", title), found = element("ol");
  const heading = element("h2", "", TITLES[title](numbers.length));
  heading.id = `list-${title}`;
  found.setAttribute("aria-labelledby", heading.id);
  found.append(...numbers.map(number => linkTo(number, title === "slowest")));
  if (numbers.length) found.querySelector("a").tabIndex = 0;
  found.addEventListener("keydown", event => rove(found, event));
  part.append(heading, found);
  return part;
};
// A list has one tab stop, and the arrows go within.
const stopAt = link => {
  for (const other of link.closest("ol").querySelectorAll('[tabindex="0"]')) other.tabIndex = -1;
  link.tabIndex = 0;
};
const rove = (list, event) => {
  const all = list.querySelectorAll("a"), now = [...all].indexOf(document.activeElement);
  const link = all[{ ArrowDown: now + 1, ArrowUp: now - 1, Home: 0, End: all.length - 1 }[event.key]];
  if (!link || event.ctrlKey || event.metaKey || event.altKey) return;
  event.preventDefault();
  stopAt(link);
  link.focus();
};
const listAll = lists => {
  failures = lists.failed;
  const titles = Object.keys(lists).filter(title => title === "failed" || lists[title].length);
  $("tests").replaceChildren(...titles.map(title => list(title, lists[title])));
  $("tests").classList.toggle("none", !failures.length);
  $("tests-fold").textContent = TITLES.failed(failures.length);
};

// Leads to a test, and the focus along. It may be in two lists: that where it was clicked is scrolled, else the first.
let current = -1;
const leadTo = async number => {
  const its = [];
  current = number;
  for (const link of links()) {
    if (Number(link.dataset.test) !== number) { link.removeAttribute("aria-current"); continue; }
    link.setAttribute("aria-current", "true");
    stopAt(link);
    its.push(link);
  }
  (its.find(link => link === document.activeElement) || its[0])?.scrollIntoView({ block: "nearest" });
  if (narrow.matches) fold($("tests"), true);
  if (shown.lines[number] >= 0) await goTo(shown.lines[number], true);
};
const goToAddress = () => leadTo(addressed());
// The address follows once the keys rest, since a browser takes few a second, and is replaced: Back leaves the page.
let resting;
const stepFailure = by => {
  const now = failures.indexOf(current), count = failures.length;
  if (!count) return;
  const next = failures[now < 0 ? (by > 0 ? 0 : count - 1) : (now + by + count) % count];
  clearTimeout(resting);
  resting = setTimeout(() => history.replaceState(null, "", addressOf(tests[next])), 100);
  leadTo(next);
};

// What the line of a test has beside it: its name as `nextest run` takes it, and what it wrote, as text.
const toolsOf = number => {
  const tools = element("span", "tools");
  tools.append(tool("copy name", async () => nameOf(tests[number])));
  if (tests[number].hasOutput) tools.append(tool("copy output", () => ask("output", { test: number })));
  return tools;
};
const tool = (label, text) => {
  const button = element("button");
  button.type = "button";
  button.tabIndex = -1;
  button.setAttribute("aria-label", label);
  button.addEventListener("click", async () => {
    await copy(await text());
    button.dataset.done = "";
    $("said").textContent = "copied";
    setTimeout(() => { delete button.dataset.done; $("said").textContent = ""; }, 1500);
  });
  return button;
};
const copy = async text => {
  try { await navigator.clipboard.writeText(text); } catch {
    // A page that came without encryption has no clipboard of its own.
    const before = document.activeElement, area = document.body.appendChild(element("textarea", "", text));
    area.select();
    document.execCommand("copy");
    area.remove();
    before.focus({ preventScroll: true });
  }
};

addEventListener("hashchange", goToAddress);
addEventListener("keydown", event => {
  if (/INPUT|SELECT/.test(event.target.tagName) || event.ctrlKey || event.metaKey || event.altKey) return;
  if (event.key === "/") { event.preventDefault(); $("find").focus(); }
  if (event.key === "n" || event.key === "p") stepFailure(event.key === "n" ? 1 : -1);
});
