// The search of the first page: finds modules by words, best match first. Without scripts the list is there alone.

// as many results are shown
const MOST = 50;
// How well a word matches, best first. The rest of an import path, or a version, names the module by itself.
const EXACT = 100;
const LAST = 90;
const LAST_BEGINS = 70;
const ELEMENT = 60;
const WORD = 50;
const WORD_BEGINS = 40;
const PART = 30;
const PACKAGE = 26;
const PACKAGE_BEGINS = 22;
const SAID = 18;
const SAID_BEGINS = 14;
const README = 10;
const README_BEGINS = 8;
const TYPO = 5;
// a shorter word has no typo: too many others are like it
const TYPO_LEAST = 4;
// the digits of numbers, and their values by their codes
const DIGITS = Array.from({ length: 94 }, (_, at) => String.fromCharCode(at + 33)).filter((it) => !/["\\]/.test(it));
const VALUES = new Uint8Array(128);
DIGITS.forEach((it, at) => (VALUES[it.charCodeAt(0)] = at));
const BASE = DIGITS.length / 2;

// The modules of the lines, each with its path, its latest version, whether it is deprecated, the names of its packages
// and what it is for.
function modulesOf(text) {
  const found = [];
  let before = "";
  for (const line of text === "" ? [] : text.split("\n")) {
    const [first, mark = "", packages = "", ...synopsis] = line.split("|");
    before = before.slice(0, parseInt(first[0], 36)) + first.slice(1);
    const [latest, isDeprecated] = [mark.replace("!", ""), mark.endsWith("!")];
    const lower = before.toLowerCase();
    found.push({ path: before, lower, latest, isDeprecated, packages, synopsis: synopsis.join("|") });
  }
  return found;
}

// The words of READMEs, each with a text that has the numbers of its modules.
function readmesOf(text) {
  const found = [];
  let before = "";
  const parts = text === "" ? [] : text.split(" ");
  for (let at = 0; at < parts.length; at += 2) {
    before = before.slice(0, parseInt(parts[at][0], 36)) + parts[at].slice(1);
    found.push({ word: before, numbers: parts[at + 1] });
  }
  return inOrder(found);
}

// Entries by their words, in the order that `<` has.
const inOrder = (entries) => entries.sort((one, other) => (one.word < other.word ? -1 : 1));

// Calls a function with each entry whose word begins so.
function forBeginning(entries, word, does) {
  let [low, high] = [0, entries.length];
  while (low < high) {
    const half = (low + high) >> 1;
    [low, high] = entries[half].word < word ? [half + 1, high] : [low, half];
  }
  for (; low < entries.length && entries[low].word.startsWith(word); low += 1) {
    does(entries[low]);
  }
}

// Calls a function with each number in a text. A digit below BASE is the last one of a number, which says how much it
// is above the one before.
function forNumbers(text, does) {
  let number = -1;
  let more = 0;
  for (let at = 0; at < text.length; at += 1) {
    const digit = VALUES[text.charCodeAt(at)];
    if (digit < BASE) {
      number += more * BASE + digit + 1;
      more = 0;
      does(number);
    } else {
      more = more * BASE + digit - BASE;
    }
  }
}

const wordsOf = (text) => text.toLowerCase().match(/[\p{L}\p{N}]+/gu) ?? [];

// What each word says of which modules: their numbers, each with how well it matches whole and by its beginning.
function indexOf(modules) {
  const index = new Map();
  function add(word, number, whole, begins) {
    if (!index.has(word)) {
      index.set(word, []);
    }
    index.get(word).push(number, whole, begins);
  }
  modules.forEach(({ lower, synopsis, packages }, number) => {
    const elements = lower.split("/");
    const last = elements.findLastIndex((it, at) => at === 0 || !/^v[0-9]+$/.test(it));
    elements.forEach((it, at) => add(it, number, ...(at === last ? [LAST, LAST_BEGINS] : [ELEMENT, WORD_BEGINS])));
    new Set(wordsOf(lower)).forEach((it) => add(it, number, WORD, WORD_BEGINS));
    new Set(packages.toLowerCase().split(/[ /]+/).filter(Boolean)).forEach((it) =>
      add(it, number, PACKAGE, PACKAGE_BEGINS),
    );
    new Set(wordsOf(synopsis)).forEach((it) => add(it, number, SAID, SAID_BEGINS));
  });
  return inOrder([...index].map(([word, said]) => ({ word, said })));
}

// All that the search knows, of the texts of the script.
function knownOf(text, common) {
  const [lines, words = ""] = text.split("\n\n");
  const modules = modulesOf(lines);
  return { modules, index: indexOf(modules), readmes: readmesOf(words), common: new Set(common.split(" ")) };
}

// Whether one letter more, less, another or two that changed places make one word of the other.
function isNear(one, other) {
  const [short, long] = one.length <= other.length ? [one, other] : [other, one];
  if (long.length - short.length > 1) {
    return false;
  }
  let first = 0;
  while (first < short.length && short[first] === long[first]) {
    first += 1;
  }
  let left = short.length - first;
  while (left > 0 && short[first + left - 1] === long[long.length - short.length + first + left - 1]) {
    left -= 1;
  }
  const isSwapped = left === 2 && short[first] === long[first + 1] && short[first + 1] === long[first];
  return long.length > short.length ? left === 0 : left <= 1 || isSwapped;
}

// How well each module matches a word, or 0, by its number; and the words in whose place others like them were taken.
// Only a word that finds none itself finds those that are like it, and those that have its parts, unless it is common.
function foundBy(word, known) {
  const { modules, index, readmes } = known;
  const scores = new Float32Array(modules.length);
  const add = (number, score) => {
    scores[number] = Math.max(scores[number], score);
  };
  const addSaid = ({ said }, scoreOf) => {
    for (let at = 0; at < said.length; at += 3) {
      add(said[at], scoreOf(at, said));
    }
  };
  forBeginning(index, word, (it) => addSaid(it, (at, said) => said[at + (it.word === word ? 1 : 2)]));
  forBeginning(readmes, word, (it) =>
    forNumbers(it.numbers, (number) => add(number, it.word === word ? README : README_BEGINS)),
  );
  modules.forEach(({ lower }, number) => {
    if (lower.includes(word)) {
      add(number, lower === word ? EXACT : PART);
    }
  });
  if (scores.some(Boolean) || word.length < TYPO_LEAST || known.common.has(word)) {
    return { scores, near: [] };
  }
  index.filter((it) => isNear(word, it.word)).forEach((it) => addSaid(it, (at, said) => TYPO + said[at + 1] / 100));
  readmes
    .filter((it) => isNear(word, it.word))
    .forEach((it) => forNumbers(it.numbers, (number) => add(number, TYPO + README / 100)));
  if (scores.some(Boolean)) {
    return { scores, near: [word] };
  }
  const parts = wordsOf(word);
  return parts.length > 1 ? joined(parts.map((it) => foundBy(it, known))) : { scores, near: [] };
}

// What several words find together.
function joined(parts) {
  const scores = parts[0].scores.map((_, number) => Math.min(...parts.map((it) => it.scores[number])));
  return { scores, near: parts.flatMap((it) => it.near) };
}

// The numbers of the modules that the most of these words find, and how many words that are.
function inMost(parts) {
  const counts = new Uint16Array(parts[0]?.scores.length ?? 0);
  parts.forEach((it) => it.scores.forEach((score, number) => (counts[number] += score > 0 ? 1 : 0)));
  const most = counts.reduce((one, other) => Math.max(one, other), 0);
  const numbers = [];
  counts.forEach((count, number) => most > 0 && count === most && numbers.push(number));
  return { most, numbers };
}

// What is asked for: of a pasted import path or a line of a go.mod or a shell, the path and the version.
function asked(text) {
  const bare = text
    .trim()
    .replace(/^(go get|go install|import|require)\s+/, "")
    .replace(/^(https?:\/\/)|^["'`(]+|["'`)/]+$/g, "")
    .replace(/^["'`]+|["'`]+$/g, "");
  const [, path, version] = /^(\S+\/\S*?)(?:@|\s+(?=v[0-9]))(\S+)$/.exec(bare) ?? [null, bare, ""];
  return { path: path.toLowerCase(), version };
}

// The module of which a path is a package, or that it is itself: the one with the longest path.
function moduleOf(path, modules) {
  let found = null;
  for (const it of modules) {
    const isIn = path === it.lower || path.startsWith(`${it.lower}/`);
    if (isIn && it.lower.length > (found?.lower.length ?? 0)) {
      found = it;
    }
  }
  return found;
}

// The modules that a text finds, best first, and what is to be said of them.
function search(text, known) {
  const { modules } = known;
  const { path, version } = asked(text);
  const owner = path.includes("/") ? moduleOf(path, modules) : null;
  if (owner) {
    const below = path.slice(owner.lower.length + 1);
    const others = modules.filter((it) => it !== owner && it.lower.includes(path));
    return { found: [owner, ...others], owner, below, version };
  }
  // (a word that most READMEs have is not in their index: it ranks what the others find)
  const words = path.split(/\s+/).map(trimmed).filter(Boolean);
  const [common, rare] = [true, false].map((is) => words.filter((it) => isCommon(it, known) === is));
  const parts = (rare.length > 0 ? rare : words).map((it) => foundBy(it, known));
  const { most, numbers } = inMost(parts);
  const sums = new Float32Array(modules.length);
  const ranks = rare.length > 0 ? [...parts, ...common.map((it) => foundBy(it, known))] : parts;
  ranks.forEach((it) => it.scores.forEach((score, number) => (sums[number] += score)));
  const found = numbers.sort((one, other) => sums[other] - sums[one]).map((number) => modules[number]);
  const isWhole = most === parts.length;
  const near = isWhole ? parts.flatMap((it) => it.near) : [];
  return { found, near, most, isWhole, common, isCommon: rare.length === 0 };
}

const isCommon = (word, { common }) => common.has(word) || word.length < 3 || /^[0-9]+$/.test(word);

// A word without the marks of a sentence around it.
function trimmed(word) {
  return word.replace(/^[^\p{L}\p{N}]+|[^\p{L}\p{N}]+$/gu, "") || word;
}

const inEnglish = (number) => number.toLocaleString("en");

const has = (number) => (number === 1 ? "has" : "have");

// What was found, in a sentence.
function told(answer, text, count) {
  const { found, owner, near, most, isWhole, common, isCommon: isAllCommon } = answer;
  const shown = found.length > MOST ? `, the first ${MOST} are shown` : "";
  if (owner) {
    return ofOwner(answer, shown);
  }
  if (found.length === 0) {
    const isOne = text.trim().split(/\s+/).length === 1;
    const rest = isOne && isAllCommon ? ", and READMEs are not searched for so common a word" : "";
    return `No module has ${isOne ? `“${text.trim()}”` : "any of these words"}${rest}.`;
  }
  const some = `${inEnglish(found.length)} of ${inEnglish(count)} modules`;
  if (!isWhole) {
    return `No module has all of these words; ${some} ${has(found.length)} ${most} of them${shown}.`;
  }
  if (near.length > 0) {
    const like = near.map((it) => `“${it}”`).join(" or ");
    return `No module has ${like}; ${some} ${has(found.length)} a word like it${shown}.`;
  }
  const rest = common.length > 0 && !isAllCommon ? ` Too common to count: ${[...new Set(common)].join(", ")}.` : "";
  return `${some}${shown}.${rest}`;
}

// The same of a path that names a module, or a package of it.
function ofOwner({ found, owner, below, version }, shown) {
  const isKnown = owner.packages.toLowerCase().split(" ").includes(below);
  const what = isKnown ? `${below} is a package of ${owner.path}` : `${below} is below the path of ${owner.path}`;
  const more = found.length - 1;
  const others = more > 0 ? ` ${inEnglish(more)} more ${has(more)} such a path${shown}.` : "";
  return `${below ? what : `This is ${owner.path}`}${version ? `, asked for at ${version}` : ""}.${others}`;
}

// A row of the results.
function rowOf(module, target) {
  const row = document.createElement("tr");
  const head = row.appendChild(document.createElement("th"));
  head.scope = "row";
  const link = head.appendChild(document.createElement("a"));
  link.href = `m/${module.path.replace(PAGES, "$1!$2")}/${target}`;
  module.path.split("/").forEach((it, at) => link.append(...(at ? ["/", document.createElement("wbr"), it] : [it])));
  if (module.isDeprecated) {
    const chip = document.createElement("span");
    chip.className = "chip deprecated";
    chip.textContent = "deprecated";
    head.append(" ", chip);
  }
  if (module.synopsis) {
    const below = head.appendChild(document.createElement("span"));
    below.className = "below";
    below.dir = "auto";
    below.textContent = module.synopsis;
  }
  const latest = row.appendChild(document.createElement("td"));
  latest.className = module.latest ? "code" : "quiet";
  latest.textContent = module.latest || "all retracted";
  return row;
}

// elements of paths that are written otherwise in the targets of pages: module_folder of markup.py
const PAGES = /(^|\/)((?:index|readme|packages|files|versions)\.html)(?=\/|$)/g;

function table(rows) {
  const made = document.createElement("table");
  const head = made.createTHead().insertRow();
  for (const name of ["Module", "Latest"]) {
    const it = head.appendChild(document.createElement("th"));
    it.scope = "col";
    it.textContent = name;
  }
  made.createTBody().append(...rows);
  return made;
}

function searching(form) {
  const input = form.querySelector("input");
  const status = form.querySelector("[role=status]");
  const [results, unlisted, list] = ["results", "unlisted", "list"].map((it) => document.getElementById(it));
  // (what else is on the page)
  const others = [...document.querySelectorAll("details.setup, section[aria-labelledby=fresh]"), list];
  const whole = status.textContent;
  let known = null;

  async function load() {
    const { MODULES, COMMON } = await import("./modules.js");
    known ??= knownOf(MODULES, COMMON);
  }

  function show() {
    const text = input.value;
    const isAsked = text.trim() !== "";
    const answer = isAsked ? search(text, known) : { found: [] };
    const target = (it) => (it === answer.owner && answer.version ? `versions.html#${answer.version}` : "");
    const rows = answer.found.slice(0, MOST).map((it) => rowOf(it, target(it)));
    results.replaceChildren(...(rows.length > 0 ? [table(rows)] : []));
    results.hidden = rows.length === 0;
    unlisted.hidden = !isAsked || rows.length > 0;
    others.forEach((it) => (it.hidden = isAsked));
    history.replaceState(null, "", isAsked ? `?q=${encodeURIComponent(text)}` : location.pathname);
    status.textContent = isAsked ? told(answer, text, known.modules.length) : whole;
  }

  async function changed() {
    try {
      await load();
      show();
    } catch {
      status.textContent = "The search is not there. The list below has all modules.";
    }
  }

  function key(event) {
    const isTyping = event.target.matches("input, textarea, select, [contenteditable]");
    if (event.key === "/" && !isTyping && !event.ctrlKey && !event.metaKey && !event.altKey) {
      event.preventDefault();
      input.focus();
    } else if (event.key === "Escape" && event.target === input) {
      input.value = "";
      changed();
    }
  }

  form.hidden = false;
  form.addEventListener("submit", (event) => event.preventDefault());
  input.addEventListener("focus", () => load().catch(() => {}), { once: true });
  input.addEventListener("input", changed);
  document.addEventListener("keydown", key);
  input.value = new URLSearchParams(location.search).get("q") ?? input.value;
  if (input.value) {
    changed();
  }
}

document.querySelectorAll("form.search").forEach(searching);
