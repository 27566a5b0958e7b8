"use strict";
// Steps through a list: each state is put together from the changes of the calls before it.

const data = JSON.parse(document.getElementById("data").textContent);
const last = data.calls.length;
let step = 0;
let domain = 0;

function at(id) {
  return document.getElementById(id);
}

function make(parent, tag, text, id) {
  const made = document.createElement(tag);
  if (text !== undefined) made.textContent = text;
  if (id) made.id = id;
  parent.append(made);
  return made;
}

// The labels of the domains whose bits are set in a word.
function members(word) {
  const named = data.domains.filter((_, d) => (word >> d) & 1);
  return named.length ? named.join(", ") : "nobody";
}

function makeList() {
  data.calls.forEach((call, number) => {
    const item = make(at("calls"), "li", undefined, "c" + number);
    make(item, "span", number).className = "number";
    make(item, "span", call.asked).className = "asked";
    make(item, "div", call.answer).className = "answer";
    if (call.refused) item.classList.add("refused");
    item.onclick = () => go(number + 1);
  });
  if (data.more) {
    make(at("list"), "p", "and " + data.more + " more, which are not on this page", "more");
  }
}

function makeRights() {
  at("rights").classList.toggle("many", data.domains.length > 6);
  const head = make(at("rights"), "tr");
  make(head, "th", "who \\ on whom");
  data.domains.forEach((name) => make(head, "th", name));
  data.domains.forEach((name, holder) => {
    const row = make(at("rights"), "tr");
    make(row, "th", name);
    data.domains.forEach((on, target) => {
      make(row, "td", "", "r" + holder + "-" + target).title = name + " on " + on;
    });
  });
}

function makeQueues() {
  const head = make(at("queues"), "tr");
  const heads = ["endpoint", "name", "owner", "places", "waiting, the oldest first", "lost"];
  heads.forEach((text) => make(head, "th", text));
  data.endpoints.forEach((endpoint, number) => {
    const row = make(at("queues"), "tr");
    make(row, "th", endpoint.label);
    make(row, "td", endpoint.name);
    make(row, "td", data.domains[endpoint.owner]);
    make(row, "td", endpoint.capacity);
    make(row, "td", "", "q" + number);
    make(row, "td", "", "l" + number);
  });
  if (!data.endpoints.length) make(at("queues"), "caption", "The table has no endpoint.");
}

function makeHolders() {
  data.domains.forEach((name, number) => {
    const row = make(at("holders"), "tr");
    make(row, "th", name);
    make(row, "td", "", "h" + number);
    const option = make(at("domain"), "option", name);
    option.value = number;
  });
}

// Writes what a change says into its places, marked where it is the change of this step.
function write(change, now) {
  const put = (id, text) => {
    at(id).textContent = text;
    at(id).classList.toggle("changed", now);
  };
  change.rights.forEach(([holder, target, set]) => put("r" + holder + "-" + target, set));
  change.queues.forEach(([endpoint, messages, lost]) => {
    put("q" + endpoint, messages.join(" "));
    put("l" + endpoint, lost);
  });
  change.holders.forEach(([d, word]) => put("h" + d, members(word)));
}

function writeHead() {
  const call = data.calls[step - 1];
  at("at").textContent = call ? "After call " + (step - 1) : "Before the list";
  at("said").textContent = call ? call.asked : "";
  at("answer").textContent = call ? call.answer : "";
  at("answer").className = call && call.refused ? "refused" : "";
  at("done").textContent = step + " of " + last + " calls";
  const where = step < last || data.more ? "at call " + step : "after the last call";
  at("set").textContent = members(data.sources[domain][step]);
  at("where").textContent = where;
}

function writeList() {
  data.calls.forEach((_, number) => {
    const item = at("c" + number);
    item.classList.toggle("now", number === step - 1);
    item.classList.toggle("done", number < step);
    item.classList.toggle("kept", data.kept[domain][number] === "1");
  });
  const now = at("c" + (step - 1)) || at("c0");
  if (now) now.scrollIntoView({ block: "nearest" });
}

function show() {
  document.querySelectorAll(".changed").forEach((cell) => cell.classList.remove("changed"));
  data.changes.slice(0, step + 1).forEach((change, n) => write(change, n === step && n > 0));
  at("domain").value = domain;
  writeHead();
  writeList();
}

function go(to) {
  step = Math.max(0, Math.min(last, to));
  history.replaceState(null, "", "#step=" + step + "&domain=" + domain);
  show();
}

function fromAddress() {
  const given = new URLSearchParams(location.hash.slice(1));
  const number = (name) => parseInt(given.get(name), 10) || 0;
  domain = Math.max(0, Math.min(data.domains.length - 1, number("domain")));
  step = Math.max(0, Math.min(last, number("step")));
  show();
}

const keys = { ArrowLeft: () => step - 1, ArrowRight: () => step + 1, Home: () => 0, End: () => last };
document.addEventListener("keydown", (event) => {
  if (!keys[event.key] || event.target.tagName === "SELECT") return;
  event.preventDefault();
  go(keys[event.key]());
});
Object.keys(keys).forEach((key) => (at(key).onclick = () => go(keys[key]())));
at("domain").onchange = () => ((domain = Number(at("domain").value)), go(step), at("domain").blur());
window.addEventListener("hashchange", fromAddress);
[makeList, makeRights, makeQueues, makeHolders, fromAddress].forEach((act) => act());
