"""What the checks of pages look at in a browser: search, keys, looks, colours, paper, and a page without scripts."""

import json
import re
import shutil

from gate.browser import OPTIONS
from gate.checks import CASES, REPORT
from gate.page_checks import STYLE, changed, make, run
from norigully import TOP
from norigully.scene_lines import Attempt, Run, header

TAB, ENTER, END, DOWN, N = ("Tab", 9), ("Enter", 13), ("End", 35), ("ArrowDown", 40), ("n", 78)
# As WCAG wants it of text.
READS = 4.5
LINES = """async () => {
  await fill(report.firstChild);
  return [...report.firstChild.children].map(it => it.textContent);
}"""
FIND = """async word => {
  $("find").value = word;
  await search(true);
  const said = $("found").value, line = document.querySelector(".at")?.textContent;
  await step(1);
  return [said, line, $("found").value, document.querySelectorAll(".hit").length];
}"""




def check_search(checks, folder, browser):
    """Search counts lines, and goes from one to the next."""
    file = folder / "page.html"
    make(checks, file, CASES / "picture.scene")
    browser.open(f"file://{file}")
    found = browser.value(f"({FIND})('COMPACT')")
    first = "        FAIL [   1.520s] beta store::index::compact"
    checks.expect(found == ["1 of 4", first, "2 of 4", 3], f"search: {found}")
    found = browser.value(f"({FIND})('no such text')")
    checks.expect(found == ["0 of 0", None, "0 of 0", 0], f"search of what is not there: {found}")


def check_looks(checks, folder, browser):
    """Keys, a long line, colours and wrapped lines."""
    file, scene, made = folder / "page.html", folder / "looks.scene", []
    of = Run(made.append, 3, 1)
    for name, text in ("one", "x" * 30_000), ("two", "short"), ("three", "short"):
        of.done("keys", name, [Attempt("fail:1", 0.01, text.encode(), b"")])
    of.end(1)
    scene.write_text("".join(made))
    make(checks, file, scene)
    browser.open(f"file://{file}")
    found = browser.value(f"({KEYS})()")
    wanted = ["one", "two", "three", "one", "three", "find", "", "report"]
    checks.expect(found == wanted, f"keys: {found}")
    browser.resize(1200, 800)
    found = browser.value(f"({LOOKS})()")
    checks.expect(found == [True, False, True, "rgb(21, 23, 28)", "rgb(243, 244, 247)", False], f"looks: {found}")
    browser.resize(390, 780, phone=True)
    found = browser.value(f"({FOLDS})()")
    checks.expect(found == ["none", "none", "grid", "none", "none", "block", True], f"folds: {found}")
    browser.resize(1200, 800)


def check_long(checks, folder, browser):
    """A report of which not all lines are in the page at a time: the page that `check_memory` made."""
    browser.open(f"file://{folder / 'large.html'}")
    scene = folder / "immediate.scene"
    scene.write_bytes(changed((folder / "large.scene").read_bytes(), "immediate", ""))
    lines = STYLE.sub("", run([REPORT, "--color", scene]).stdout.decode()).removesuffix("\n").split("\n")
    count, word = len(lines), "line 5 of test 700:"
    place = next(it for it, line in enumerate(lines) if word in line) // 20_000
    before, behind = f"Lines 1 to {20 * place},000", f"Lines {20 * place + 20},001 to {count:,}"
    wanted = [100, True, f"Lines 20,001 to {count:,}", lines[-1], f"Lines 1 to {count // 20_000 * 20},000", True]
    wanted += [f"    {word} ok", before, behind, lines[20_000 * (place + 1)]]
    wanted += [f"Lines 1 to {20 * place + 20},000", f"Lines {20 * place + 40},001 to {count:,}", count]
    found = browser.value(f"({LONG})({json.dumps(word)})")
    checks.expect(found == wanted, f"a long report: {found}")


# The tests that the keys lead to, one after another, and where the focus is.
KEYS = """async () => {
  const found = [], pressed = key => new KeyboardEvent("keydown", { key, bubbles: true });
  const press = (key, to = document.body) => to.dispatchEvent(pressed(key));
  for (const key of ["n", "n", "n", "n", "p"]) {
    press(key);
    await rested();
    found.push(document.querySelector("[aria-current]").lastChild.textContent);
  }
  press("/");
  found.push(document.activeElement.id);
  $("find").value = "short";
  press("Escape", $("find"));
  return [...found, $("find").value, document.activeElement.id];
}"""
LOOKS = """async () => {
  await fill(report.firstChild);
  const isCut = /x … and 100\\d\\d characters more/.test(report.textContent);
  const isWide = () => report.scrollWidth > report.clientWidth;
  const back = theme => {
    $("theme").value = theme;
    $("theme").dispatchEvent(new Event("change"));
    return getComputedStyle(document.body).backgroundColor;
  };
  const before = isWide();
  $("wrap").click();
  return [isCut, isWide(), before, back("dark"), back("light"), document.documentElement.scrollWidth > innerWidth];
}"""
LONG = """async word => {
  const at = () => document.querySelector(".at").textContent;
  const rest = () => ["earlier", "later"].map(it => $(it).hidden || $(it).textContent);
  most = 100;
  $("success").value = "immediate";
  await show();
  const found = [blocks().length, ...rest()];
  await goTo(shown.count - 1);
  found.push(at(), ...rest());
  $("find").value = word;
  await search(true);
  found.push(at(), ...rest());
  $("later").click();
  await rested();
  return [...found, at(), ...rest(), shown.count];
}"""
FOLDS = """async () => {
  const seen = () => ["options", "tests"].map(it => getComputedStyle($(it)).display), found = seen();
  for (const button of document.querySelectorAll(".folds button")) { button.click(); found.push(...seen()); }
  return [...found, document.documentElement.scrollWidth <= innerWidth];
}"""


# Of each text of a picture its characters, how many the browser drew, and how many columns the farthest is off.
GLYPHS = """() => [...document.querySelectorAll("text")].map(it => {
  const drawn = it.getNumberOfChars(), column = it.textLength.baseVal.value / it.textContent.length;
  const off = i => Math.abs(it.getStartPositionOfChar(i).x - it.x.baseVal[0].value - i * column) / column;
  return [it.textContent, drawn, Math.max(...Array.from({length: drawn}, (_, i) => off(i)))];
})"""


def check_pictures(checks, _folder, browser):
    """Each character of a picture is in its column: a browser may collapse spaces, and spread what is left."""
    for file in sorted((TOP / "docs").glob("*.svg")):
        if file.name == "diagram.svg":
            continue
        browser.show(f"file://{file}")
        found = browser.value(f"({GLYPHS})()")
        checks.expect(len(found) > 20, f"{file.name}: {len(found)} texts")
        wrong = [it for it in found if len(it[0]) != it[1] or it[2] > 0.5]
        checks.expect(not wrong, f"{file.name}: {len(wrong)} texts are pulled apart: {wrong[:2]}")




def luminance(colour):
    """The relative luminance of WCAG, of three numbers."""
    linear = [it / 12.92 if it <= 0.04045 else ((it + 0.055) / 1.055) ** 2.4 for it in (it / 255 for it in colour)]
    return 0.2126 * linear[0] + 0.7152 * linear[1] + 0.0722 * linear[2]


def contrast(one, other):
    low, high = sorted((luminance(one), luminance(other)))
    return (high + 0.05) / (low + 0.05)


# The colours of each text, and of what is behind it.
COLOURS = """of => [...new Set([...document.querySelectorAll(of)].map(it => {
  const own = [...it.childNodes].some(child => child.nodeType === Node.TEXT_NODE && child.data.trim());
  const said = getComputedStyle(it, "::before").content, isSeen = it.checkVisibility({ visibilityProperty: true });
  if (!isSeen || !(own || said !== "none")) return "";
  let behind = it;
  const isClear = it => getComputedStyle(it).backgroundColor === "rgba(0, 0, 0, 0)";
  while (isClear(behind) && behind.parentElement) behind = behind.parentElement;
  return `${getComputedStyle(it).color} on ${getComputedStyle(behind).backgroundColor} ${getComputedStyle(it).opacity}`;
}))]"""
FILL = """(async () => {
  for (const block of blocks()) await fill(block);
  return report.querySelectorAll("span").length;
})()"""
THEME = "theme => { $('theme').value = theme; $('theme').dispatchEvent(new Event('change')); }"
LINES_AS = "name => { for (const line of report.querySelectorAll(':scope > div > div')) line.className = name; }"


def colours_scene():
    """A test that wrote text of many colours on each of the 256, and of each on none."""
    backs = [f"48;5;{it}" for it in range(256)] + ["49", "48;2;118;118;118", "48;2;120;120;120"]
    backs += map(str, [*range(40, 48), *range(100, 108)])
    fores = ["39", "2", "1", *map(str, [*range(30, 38), *range(90, 98)])]
    fores += (f"38;5;{it}" for it in (16, 21, 46, 118, 196, 226, 231, 244))
    with_own = [(back, [*fores, f"38{back[2:]}" if ";" in back else "39"]) for back in backs]
    lines = ["".join(f"\x1b[0;{fore};{back}mx" for fore in own) for back, own in with_own]
    lines += ["".join(f"\x1b[0;{also}38;5;{it}mx" for also in ("", "1;", "2;")) for it in range(256)]
    made = []
    of = Run(made.append, 1, 1)
    of.done("colours", "all", [Attempt("fail:1", 0.01, "".join(f"{it}\x1b[0m\n" for it in lines).encode(), b"")])
    of.end(1)
    return "".join(made)


def check_colours(checks, folder, browser):
    """Each text reads on what is behind it, whatever colours a test gave it, in each theme and on each kind of line."""
    file, scene = folder / "page.html", folder / "colours.scene"
    scene.write_text(colours_scene())
    make(checks, file, scene)
    browser.open(f"file://{file}")
    count, backs, pairs, unread = browser.value(FILL), set(), 0, []
    for theme in ("light", "dark"):
        browser.value(f"({THEME})('{theme}')")
        for kind in ("", "hit", "at"):
            browser.value(f"({LINES_AS})('{kind}')")
            for found in filter(None, browser.value(f"({COLOURS})('main span, main div')")):
                numbers = list(map(float, re.findall(r"[\d.]+", found)))
                pairs += 1
                backs.add(tuple(numbers[3:6]))
                if contrast(numbers[:3], numbers[3:6]) < READS or numbers[6:] != [1.0]:
                    unread.append(f"{theme}: {found}")
    checks.expect(not unread, f"{len(unread)} of {pairs} pairs of colours do not read: {unread[:3]}")
    checks.expect(len(backs) > 250 and count > 7000, f"colours: {len(backs)} backgrounds of {count} pieces")


def check_own_colours(checks, folder, browser):
    """So it is with what the page says itself, also beside a line that is chosen."""
    file = folder / "own.html"
    make(checks, file, CASES / "picture.scene")
    for phone in (False, True):
        browser.resize(*((390, 780) if phone else (1200, 800)), phone=phone)
        browser.open(f"file://{file}#beta store::index::compact")
        if phone:
            unfold = "it => fold($(it.getAttribute('aria-controls')), false)"
            browser.value(f"document.querySelectorAll('.folds button').forEach({unfold})")
        for theme in ("light", "dark"):
            browser.value(f"({THEME})('{theme}')")
            rows = [list(map(float, re.findall(r"[\d.]+", it))) for it in browser.value(f"({COLOURS})('body *')") if it]
            unread = [it for it in rows if contrast(it[:3], it[3:6]) < READS]
            said = f"{theme}: {len(rows)} colours of the page itself, unread {unread}"
            checks.expect(len(rows) > 9 and not unread, said)
    browser.resize(1200, 800)


STRETCHES = """async () => {
  await fill(report.firstChild);
  const line = [...report.firstChild.children].find(it => it.textContent.length > 2000);
  return [line.querySelectorAll("span").length, line.textContent.trim(), report.querySelectorAll("span").length];
}"""


def check_stretches(checks, folder, browser):
    """A colour for each character: of a line no more than some 200 stretches have their own."""
    file, scene, made = folder / "page.html", folder / "stretches.scene", []
    text = "".join(chr(97 + it % 26) for it in range(3000))
    line = "".join(f"\x1b[{31 + it % 3}m{character}" for it, character in enumerate(text))
    of = Run(made.append, 1, 1)
    of.done("stretches", "all", [Attempt("fail:1", 0.01, f"{line}\x1b[0m\n".encode() * 50, b"")])
    of.end(1)
    scene.write_text("".join(made))
    make(checks, file, scene)
    browser.open(f"file://{file}")
    count, seen, all_ = browser.value(f"({STRETCHES})()")
    is_cut = seen == text and 190 < count < 205 and all_ < 50 * 205 + 100
    checks.expect(is_cut, f"stretches: {count} {all_} {seen[:40]}")


WHERE = """() => {
  const it = document.activeElement;
  return [it.id || it.getAttribute("aria-label") || "", it.textContent.slice(0, 80)];
}"""


def check_keyboard(checks, folder, browser):
    """150 failures are one tab stop, arrows go from one to the next, and the focus goes where a link leads."""
    file, scene, made = folder / "page.html", folder / "keyboard.scene", []
    of = Run(made.append, 150, 1)
    for number in range(150):
        of.done("keys", f"case_{number:03}", [Attempt("fail:1", 0, f"output {number}\n".encode(), b"")])
    of.end(1)
    scene.write_text("".join(made))
    make(checks, file, scene)
    browser.resize(1200, 800)
    browser.open(f"file://{file}")

    def pressed(*keys):
        for key in keys:
            browser.press(*key)
        return browser.value(f"({WHERE})()")

    stops = [pressed(TAB)]
    while stops[-1][0] != "report" and len(stops) < 200:
        stops.append(pressed(TAB))
    checks.expect(len(stops) <= 12 and stops[0][0] == "skip", f"{len(stops)} tab stops before the report: {stops[:3]}")
    browser.open(f"file://{file}")
    checks.expect(pressed(TAB, ENTER)[0] == "report", "the link to the report")
    browser.open(f"file://{file}")
    browser.value("links()[0].focus()")
    checks.expect(pressed(DOWN, DOWN)[1] == "keyscase_002", f"arrows: {browser.value(f'({WHERE})()')}")
    checks.expect(pressed(END)[1] == "keyscase_149", "the last of the list")
    for keys, number in (((ENTER,), 149), ((N,), 0), ((N,), 1)):
        found = pressed(*keys)[1]
        checks.expect(found.endswith(f"] keys case_{number:03}"), f"the focus of failure {number}: {found}")
    found = [pressed(TAB)[0], pressed(TAB)[0]]
    checks.expect(found == ["copy name", "copy output"], f"tab stops at a failure: {found}")
    reached = "document.querySelectorAll('nav [tabindex=\"0\"], main [tabindex=\"0\"]')"
    stops = browser.value(f"[...{reached}].map(it => it.textContent)")
    checks.expect(stops == ["keyscase_001", "", ""], f"one stop of a list: {stops}")


def check_many(checks, folder, browser):
    """A press of Tab over 2,000 failures takes no half second, and 100,000 codes of one sequence take none either: no
    text takes time in proportion to its square."""
    file, scene, made = folder / "page.html", folder / "many.scene", []
    of = Run(made.append, 2000, 1)
    for number in range(2000):
        of.done("many", f"case_{number:04}", [Attempt("fail:1", 0, b"", b"")])
    of.end(1)
    scene.write_text("".join(made))
    make(checks, file, "--choices", "few", scene)
    browser.resize(1200, 800)
    browser.open(f"file://{file}")
    taken = []
    while len(taken) < 20 and browser.value(f"({WHERE})()")[1] != "manycase_0000":
        taken.append(-browser.seconds())
        for kind in ("rawKeyDown", "keyUp"):
            browser.ask("Input.dispatchKeyEvent", type=kind, key=TAB[0], code=TAB[0], windowsVirtualKeyCode=TAB[1])
        browser.value("document.activeElement.getBoundingClientRect().top")
        taken[-1] += browser.seconds()
    checks.expect(sum(taken) < 0.5 * len(taken) and len(taken) < 20, f"Tab over 2,000 failures: {taken}")
    before = browser.seconds()
    browser.value("restyled(PLAIN, '38;'.repeat(100000)) && 0")
    seconds = browser.seconds() - before
    checks.expect(seconds < 2, f"100,000 codes of one sequence: {seconds:.1f} s")


def check_steps(checks, folder, browser):
    """However fast `n` is pressed, it leads to each of 500 failures, and none is an entry of Back. Of the lists of
    those that are slow, too, that of failures is scrolled."""
    file, scene, made = folder / "page.html", folder / "steps.scene", []
    of = Run(made.append, 500, 1)
    for number in range(500):
        of.done("steps", f"case_{number:03}", [Attempt("fail:1", 9 * (number > 490), b"", b"")])
    of.end(1)
    scene.write_text("".join(made))
    make(checks, file, "--choices", "few", scene)
    browser.resize(1200, 800)
    browser.open(f"file://{file}")
    found = browser.value(f"({STEPS})(500)")
    checks.expect(found == [500, 0, "#steps%20case_499", True], f"500 steps: {found}")


STEPS = """async count => {
  const before = history.length, found = new Set();
  for (let number = 0; number < count; number++) {
    document.body.dispatchEvent(new KeyboardEvent("keydown", { key: "n", bubbles: true }));
    await new Promise(it => setTimeout(it, 0));
    found.add(document.querySelector("[aria-current]")?.lastChild.textContent);
  }
  await until(() => location.hash === addressOf(tests[count - 1]));
  await rested();
  const link = document.querySelector(".failed [aria-current]")?.getBoundingClientRect();
  const list = $("tests").getBoundingClientRect();
  const isShown = link && link.top >= list.top - 1 && link.bottom <= list.bottom + 1;
  return [found.size, history.length - before, location.hash, isShown];
}"""


def lists_scene():
    """A recorded run with a failure in each form that its name may have, a flaky test, and slow ones."""
    made = [header((2024, 2, 29, 7, 5, 9), "ok")]
    of = Run(made.append, 40, 2, profile="ci <b>")
    for number in range(30):
        of.done("lists", f"pass_{number}", [Attempt("pass", number + 1, b"", b"")])
    imitation = b"\n    FAIL [   0.010s] lists later\n"
    of.done("lists", "first\nsecond", [Attempt("fail:1", 0.01, imitation + b"of the first\n", b"")])
    of.done("lists", "first\nthird", [Attempt("sig:6:ABRT", 0.01, None, b"of the third\n")])
    of.done("lists", "flaky", [Attempt("fail:1", 0.01, b"first try\n", b""), Attempt("pass", 0.02, b"", b"")])
    of.done("lists", "later", [Attempt("fail:1", 0.01, b"\x1b[1mof\x1b[0m the later\n", b"")])
    of.done("lists", "silent", [Attempt("fail:1", 0.01, None, None)])
    of.end(3723.5)
    return "".join(made)


# What each list has, and where each link leads.
LISTS = """async () => {
  const found = [];
  for (const link of links()) {
    const before = document.activeElement;
    link.click();
    await until(() => ![before, link, document.body].includes(document.activeElement));
    const line = document.activeElement, next = line.nextElementSibling;
    found.push([link.closest("section").className, link.textContent, line.textContent, next?.textContent ?? ""]);
  }
  return found;
}"""
COPY = """async number => {
  const copied = [];
  await goTo(shown.lines[number], true);
  for (const button of document.activeElement.querySelectorAll("button")) {
    await navigator.clipboard.writeText("");
    button.click();
    await until(() => navigator.clipboard.readText());
    copied.push(await navigator.clipboard.readText());
  }
  return copied;
}"""
FACTS = "[...document.querySelectorAll('#facts div')].map(it => it.textContent)"


def check_lists(checks, folder, browser):
    """The facts, the lists, where their links lead, and what is copied."""
    file, scene = folder / "page.html", folder / "lists.scene"
    scene.write_text(lists_scene())
    make(checks, file, scene)
    browser.open(f"file://{file}")
    facts = ["Profile ci <b>", "Run 00000000-0000-4000-8000-000000000001"]
    facts += ["Started 2024-02-29 07:05:09", "Took 1 h 2 min"]
    checks.expect(browser.value(FACTS) == facts, f"facts: {browser.value(FACTS)}")
    wanted = [
        *(["failed", f"listsfirst\n{it}", "[   0.010s] lists first", it] for it in ("second", "third")),
        *(["failed", f"lists{it}", f"[   0.010s] lists {it}", None] for it in ("later", "silent")),
        ["flaky", "listsflaky", "  TRY 2 PASS [   0.020s] lists flaky", None],
        *(
            ["slowest", f"lists{it + 1}.000spass_{it}", f"[{it + 1:4}.000s] lists pass_{it}", None]
            for it in range(29, 19, -1)
        ),
    ]
    found = browser.value(f"({LISTS})()")
    same = [a[:2] == b[:2] and a[2].endswith(b[2]) and b[3] in (a[3], None) for a, b in zip(found, wanted)]
    others = [it for it, is_it in zip(found, same) if not is_it]
    checks.expect(all(same) and len(found) == len(wanted), f"lists: {others}")
    browser.ask("Browser.grantPermissions", permissions=["clipboardReadWrite", "clipboardSanitizedWrite"])
    rows = [
        (0, "lists first\nsecond", "FAIL [   0.010s] lists later\n    of the first"),
        (1, "lists first\nthird", "of the third"),
        (2, "lists later", "  stdout ---\n    of the later\n\n    (test failed with exit code 1)"),
        (4, "lists flaky", None),
    ]
    numbers = browser.value("[...links()].map(it => Number(it.dataset.test))")
    for link, name, output in rows:
        copied = browser.value(f"({COPY})({numbers[link]})")
        is_right = copied[0] == name and (len(copied) == 1 if output is None else output in copied[1])
        checks.expect(is_right and "\x1b" not in "".join(copied), f"copied of {name}: {copied}")
    check_levels(checks, browser)


def check_levels(checks, browser):
    """A test that a level does not show has a link that says so, and the links of others stay as they are."""
    states = "[...links()].map(it => it.classList.contains('unseen-here'))"
    for level, count in (("fail", 10), ("none", 10), ("pass", 0)):
        browser.value(f"(async () => {{ $('level').value = '{level}'; await show(); }})()")
        unseen = browser.value(states)
        checks.expect(sum(unseen) == count and not any(unseen[:4]), f"links at the level {level}: {unseen}")
        browser.value("links()[14].click()")
        browser.value("links()[2].click()")
        browser.value("until(() => document.activeElement.textContent.endsWith('] lists later'))")
        found = browser.value(f"[$('found').value, ...({WHERE})()]")
        checks.expect(found[0] == "" and found[2].endswith("] lists later"), f"a link at the level {level}: {found}")


def check_no_script(checks, folder, browser):
    """Without scripts a page has the run's own report as text, and its facts."""
    for scene in ("picture.scene", "real/hostile.scene", "printed/answers_in_every_state"):
        file = folder / "page.html"
        make(checks, file, CASES / scene)
        browser.allow_scripts(False)
        browser.show(f"file://{file}")
        is_shown = "document.querySelector('#layout').checkVisibility()"
        found = browser.value(f"[document.querySelector('#text').textContent, {is_shown}]")
        text = run([REPORT, CASES / scene]).stdout.decode()
        text = re.sub(r"[\x00-\x08\x0b-\x1f\x7f]", "", STYLE.sub("", text))
        checks.expect(found == [text, False], f"{scene} without scripts: {found[0][:300]!r} {text[:300]!r}")
        browser.allow_scripts(True)
    # A browser that has not read the run yet shows the same.
    silent = browser.ask("Page.addScriptToEvaluateOnNewDocument", source="window.Worker = class { postMessage() {} };")
    browser.show(f"file://{file}")
    browser.ask("Page.removeScriptToEvaluateOnNewDocument", **silent)
    shown = browser.value("['text', 'layout'].map(it => document.getElementById(it).checkVisibility())")
    checks.expect(shown == [True, False], f"the text and the rest before the run is read: {shown}")


def paper_scene():
    """A run whose report has some 2,800 lines, of which failures have the most."""
    made = []
    of = Run(made.append, 400, 1)
    for number in range(400):
        lines = (f"line {it} of test {number}: \x1b[37;41m{'long ' * (it % 40)}\x1b[0m\n" for it in range(25))
        name, text = f"case_{number:03}", "".join(lines)
        result = "fail:1" if number % 4 == 3 else "pass"
        of.done("paper", name, [Attempt(result, 0.01, text.encode(), b"")])
    of.end(60)
    return "".join(made)


ON_PAPER = """() => {
  dispatchEvent(new Event("beforeprint"));
  const parts = [...$("paper").querySelectorAll(":scope > :not(p)")];
  const lines = parts.map(it => it.textContent).join("\\n").split("\\n");
  const said = [...$("paper").querySelectorAll(":scope > p")].map(it => it.textContent);
  return [lines.length, lines[0], lines[lines.length - 1], ...said];
}"""


def check_paper(checks, folder, browser):
    """On paper is the whole report that is shown, black on white, and a failure is on one page. A browser that prints a
    page as soon as it has it prints the run's own report."""
    file, scene, paper = folder / "page.html", folder / "paper.scene", folder / "paper.pdf"
    scene.write_text(paper_scene())
    make(checks, file, scene)
    words = [browser.name, *OPTIONS, f"--user-data-dir={folder / 'browser'}"]
    words += ["--no-pdf-header-footer", f"--print-to-pdf={paper}"]
    run([*words, f"file://{file}"], timeout=120)
    check_pages_of(checks, "the own report", paper, run([REPORT, scene]).stdout)
    browser.open(f"file://{file}")
    for level, theme in (("pass", "light"), ("fail", "dark")):
        browser.value(f"({THEME})('{theme}')")
        browser.value(f"(async () => {{ $('level').value = '{level}'; await show(); }})()")
        paper.write_bytes(browser.printed())
        check_pages_of(checks, f"level {level}", paper, run([REPORT, "--level", level, scene]).stdout, is_split=False)
    browser.ask("Emulation.setEmulatedMedia", media="print")
    browser.value(f"({ON_PAPER})()")
    inks = browser.value(f"({COLOURS})('#paper *, header *')")
    checks.expect({*inks} - {""} == {"rgb(0, 0, 0) on rgb(255, 255, 255) 1"}, f"black on white: {inks}")
    browser.ask("Emulation.setEmulatedMedia", media="")


def check_pages_of(checks, name, paper, report, is_split=True):
    """Each line of a report is on paper, whatever is wrapped there."""
    if not shutil.which("pdftotext"):
        print("page: left out: what is on paper, since there is no pdftotext")
        return
    text = re.sub(r"(?m)^ *\d+ / \d+$", "", run(["pdftotext", "-layout", paper, "-"]).stdout.decode())
    plain = re.sub(r"\s", "", STYLE.sub("", report.decode()))
    checks.expect(plain in re.sub(r"\s", "", text), f"{name} on paper: {len(plain)} characters, and {len(text)} there")
    pages = text.split("\f")
    halves = [it for it in range(3, 400, 4) if sum(f" of test {it}: " in page for page in pages) > 1]
    checks.expect(is_split or not halves, f"{name}: {len(halves)} failures are cut in two: {halves[:3]}")
    print(f"page: {name} on {len(pages) - 1} pages of paper")


def check_long_paper(checks, folder, browser):
    """Of a report of more than 20,000 lines the first and the last are printed, and how many are not: the page that
    `check_memory` made."""
    browser.open(f"file://{folder / 'large.html'}")
    browser.value("(async () => { $('success').value = 'immediate'; await show(); })()")
    count, first, last, chosen, left, *more = browser.value(f"({ON_PAPER})()")
    whole = browser.value("shown.count")
    number = int(re.search(r"[\d,]+", left)[0].replace(",", ""))
    checks.expect(count + number == whole and 19_900 < count <= 20_000 and not more, f"{count} and {left} of {whole}")
    is_whole = "at once" in chosen and first.startswith("---") and "FAIL" in last
    checks.expect(is_whole, f"a long report on paper: {chosen} {last}")


CHECKS = (
    *(check_search, check_looks, check_pictures, check_colours, check_own_colours, check_stretches, check_keyboard),
    *(check_many, check_steps, check_lists, check_no_script, check_paper),
)
# Those of the page that `check_memory` made.
LONG_CHECKS = (check_long, check_long_paper)
