// What takes long is done here, beside the page: it unpacks the lines, puts reports together, and finds text in them.
const BLOCK = 200, MOST_ON_PAPER = 20000, ON_PAPER = 100;
let table = [], plain = [], reports = [], about = {}, current = { generation: 0, report: [], styles: [] };
// By the place of a line in the table the number of the test that it reports, from 1.
let testOf = [];

const unpacked = async text => {
  const binary = atob(text), bytes = new Uint8Array(binary.length);
  for (let at = 0; at < bytes.length; at++) bytes[at] = binary.charCodeAt(at);
  const stream = new Blob([bytes]).stream().pipeThrough(new DecompressionStream("gzip"));
  return new TextDecoder("utf-8", { ignoreBOM: true }).decode(await new Response(stream).arrayBuffer());
};

const plainOf = place => (plain[place] ??= table[place].replace(SEQUENCE, ""));
// A line of the report itself begins with a style, and one that a test wrote with spaces.
const isOwn = place => table[place].startsWith("\x1b[");

// A report is the places of its lines in the table.
const placesOf = ({ level, failure, success }) => {
  const number = about.reports[[level, failure, success]];
  if (number === undefined) throw new Error("the page has no such report");
  const stretches = reports[number].split(",").map(Number);
  let count = 0;
  for (let k = 1; k < stretches.length; k += 2) count += stretches[k];
  const places = new Uint32Array(count);
  for (let k = 0, at = 0, to = 0; k < stretches.length; k += 2) {
    at += stretches[k];
    for (const end = at + stretches[k + 1]; at < end; at++) places[to++] = at;
  }
  return places;
};

// How many lines a name takes.
const heightOf = ([binary, name]) => `${binary}${name}`.split("\n").length;
// The line of each test in a report: the one that reports its end, or else one of the summary, which has the same
// time and name.
const linesOfTests = report => {
  const lines = about.tests.map(() => -1), others = new Map();
  const keyOf = place => table[place].slice(table[place].indexOf("\x1b[0m ["));
  for (let n = 0; n < report.length; n++) {
    const number = testOf[report[n]];
    if (number && lines[number - 1] < 0) lines[number - 1] = n;
  }
  for (const [k, [, , place]] of about.tests.entries()) {
    if (place < 0 || lines[k] >= 0) continue;
    const key = keyOf(place), same = others.get(key);
    if (same) same.push(k); else others.set(key, [k]);
  }
  for (let n = 0; others.size && n < report.length; n++) {
    for (const k of (isOwn(report[n]) && others.get(keyOf(report[n]))) || []) {
      const isSame = (_, i) => i === 0 || table[report[n + i]] === table[about.tests[k][2] + i];
      if (lines[k] < 0 && Array.from({ length: heightOf(about.tests[k]) }).every(isSame)) { lines[k] = n; break; }
    }
  }
  return lines;
};
// What a test wrote, as the report shows it, which follows its name.
const outputOf = test => {
  const [, , place, end] = test, lines = [];
  for (let at = place + heightOf(test); place >= 0 && at < end; at++) lines.push(plainOf(at));
  return lines.join("\n").replace(/^\n+|\s+$/g, "");
};
const timeOf = ([, , place]) => (place < 0 ? "" : /\[[ >]*([\d.]+s)\]/.exec(plainOf(place))?.[1] ?? "");

// The style in front of a block, from the last line before it that ends a style, or from the last block whose style is
// known.
const styleAt = at => {
  const { report, styles } = current;
  let from = at * BLOCK;
  const known = () => from % BLOCK === 0 && styles[from / BLOCK];
  while (!known() && !table[report[from - 1]].includes("\x1b[0m")) from--;
  let style = known() || PLAIN;
  for (from -= known() ? 0 : 1; from < at * BLOCK; from++) style = styleAfter(table[report[from]], style);
  return (styles[at] = style);
};

// The first or the last lines that fit on that much paper.
const fitting = (report, most) => {
  let count = 0;
  for (const place of report) {
    if (most <= 0) break;
    most -= 1 + Math.floor(Math.min(plainOf(place).length, LONGEST) / ON_PAPER);
    count++;
  }
  return count;
};
// Lines as plain text, each with those behind it that are of one test: a line that begins with a style and has a time,
// or that many dashes, begins anew.
const begins = place => {
  if (isOwn(place)) return /^[^[\]]{1,14}\[[^\]]*\] /.test(plainOf(place));
  return /^[─-]{12}$/.test(table[place]);
};
const partsOf = places => {
  const parts = [];
  for (const place of places) {
    const line = plainOf(place), more = line.length - LONGEST;
    const text = more > 0 ? `${line.slice(0, LONGEST)} … and ${more} characters more` : line;
    if (!parts.length || begins(place)) parts.push(text); else parts[parts.length - 1] += `\n${text}`;
  }
  return parts;
};

const handlers = {
  async start({ packed }) {
    const [said, all, lines] = await Promise.all(packed.map(unpacked));
    about = JSON.parse(said);
    [reports, table] = [all.split("\n"), lines.slice(0, -1).split("\n")];
    testOf = new Uint32Array(table.length);
    for (const [k, [, , place]] of about.tests.entries()) if (place >= 0) testOf[place] = k + 1;
    const failed = new Set(about.lists.failed);
    const tests = about.tests.map((it, k) => {
      const hasOutput = failed.has(k) && outputOf(it) !== "";
      return { binary: it[0], name: it[1], time: timeOf(it), hasOutput };
    });
    return { tests, lists: about.lists, note: about.note, choices: Object.keys(about.reports) };
  },
  show({ choice }) {
    let report = placesOf(choice), summary = [];
    // What follows the last line feed is a line only where it is something.
    if (report.length && table[report.at(-1)] === "") report = report.subarray(0, -1);
    for (let n = report.length - 1; n >= 0 && !summary.length; n--) {
      if (isOwn(report[n]) && /^ +Summary \[/.test(plainOf(report[n]))) summary = pieces(table[report[n]], PLAIN);
    }
    current = { generation: current.generation + 1, report, styles: [PLAIN] };
    return { generation: current.generation, count: report.length, summary, lines: linesOfTests(report) };
  },
  block({ generation, at }) {
    if (generation !== current.generation) return null;
    let style = styleAt(at);
    return Array.from(current.report.subarray(at * BLOCK, (at + 1) * BLOCK), place => {
      const made = pieces(table[place], style);
      style = styleAfter(table[place], style);
      return made;
    });
  },
  // The lines to print: all, or of a long report the first and the last.
  paper({ generation }) {
    if (generation !== current.generation) return null;
    const { report } = current, first = fitting(report, MOST_ON_PAPER / 2);
    const last = fitting(report.slice(first).reverse(), MOST_ON_PAPER / 2), left = report.length - first - last;
    return { first: partsOf(report.subarray(0, first)), last: partsOf(report.subarray(first + left)), left };
  },
  output: ({ test }) => outputOf(about.tests[test]),
  find({ word }) {
    const wanted = word.toLowerCase(), known = new Uint8Array(table.length), hits = [];
    for (let n = 0; wanted && n < current.report.length; n++) {
      const place = current.report[n];
      known[place] ||= plainOf(place).toLowerCase().includes(wanted) ? 2 : 1;
      if (known[place] === 2) hits.push(n);
    }
    return Uint32Array.from(hits);
  },
  text: ({ choice }) => Array.from(placesOf(choice), place => table[place]).join("\n"),
};
// One question after another, in their order.
let last = Promise.resolve();
onmessage = ({ data }) => {
  last = last.then(() => handlers[data.what](data)).then(
    result => postMessage({ number: data.number, result }),
    error => postMessage({ number: data.number, fault: error.message }),
  );
};
