// What is printed: the report that is shown, which is on paper alone. A browser asks for it at once, so its lines are
// here before; until then it is the run's own report, as text.
let paper = null;
const takePaper = async () => { paper = await ask("paper", { generation: shown.generation }); };
// Browsers take long to print many elements: what is one line each is together.
const TOGETHER = 100;
const putParts = (to, parts) => {
  let lines = [];
  const end = () => {
    if (lines.length) to.append(element("div", "", lines.join("\n")));
    lines = [];
  };
  for (const part of parts) {
    const at = part.indexOf("\n");
    if (at < 0) lines.push(part);
    if (at >= 0 || lines.length === TOGETHER) end();
    if (at < 0) continue;
    const whole = to.appendChild(element("section"));
    whole.append(element("b", "", part.slice(0, at)), part.slice(at));
  }
  end();
};
addEventListener("beforeprint", () => {
  const to = $("paper");
  to.replaceChildren();
  if (!paper) {
    if ($("text").hidden) to.append($("text").textContent);
    return;
  }
  const saidOf = id => [$(`${id}-label`).textContent, $(id).selectedOptions[0].textContent].join(": ");
  const said = ["level", "failure", "success"].map(saidOf);
  to.append(element("p", "", said.join(" · ")));
  putParts(to, paper.first);
  if (!paper.left) return;
  to.append(element("p", "", `… ${paper.left.toLocaleString("en")} lines are not printed: a lower level has fewer …`));
  putParts(to, paper.last);
});
addEventListener("afterprint", () => $("paper").replaceChildren());

const start = async () => {
  const about = await ask("start", { packed: ["about", "reports", "table"].map(id => $(id).textContent) });
  for (const id of ["about", "reports", "table"]) $(id).remove();
  tests = about.tests;
  // Only what the page has can be chosen.
  const kept = new Set(about.choices.map(key => key.split(",")[2]));
  for (const option of [...$("success").options]) if (!kept.has(option.value)) option.remove();
  $("note").textContent = about.note;
  $("note").hidden = !about.note;
  listAll(about.lists);
  await show();
  await goToAddress();
};
const ready = start().catch(error => { $("summary").textContent = `This run cannot be shown: ${error.message}`; });
