// The page: what is asked, and what is on the screen.

import { byId, make, refusal, withClass } from "./elements.js";
import { addSector, clearMarks, fillForm, part, removeSector, rows, tripText } from "./form.js";
import { audited, quotation, reasons, tenCheapest } from "./answers.js";
import { refusalOfFault, refusalOfStatus } from "./refusals.js";

// The newest question, and how often what it is about was changed: an answer to another question is never shown, and one to what
// the form no longer says is greyed.
let newest = 0;
let tripChanges = 0;
let lineChanges = 0;
let leave = new AbortController();

// What the answer on the screen is about; null where there is none.
let shownFor = null;

const AUDIT = "/json/audit";

const STALE = "The form has changed since this was asked.";

function show(box, isBusy = false) {
  byId("answer").replaceChildren(box);
  byId("answer").classList.remove("stale");
  byId("answer").setAttribute("aria-busy", String(isBusy));
}

function isStale(question) {
  return question.trip !== tripChanges || (question.hasLine && question.line !== lineChanges);
}

function greyIfStale() {
  if (shownFor === null || !isStale(shownFor) || byId("answer").classList.contains("stale")) return;
  byId("answer").classList.add("stale");
  byId("answer").prepend(withClass(make("p", STALE), "changed"));
}

function changed(event) {
  if (event.target.id === "line") lineChanges += 1;
  else tripChanges += 1;
  greyIfStale();
}

// Says that the answer is waited for, and for how many seconds, until the interval that it answers is cleared.
function wait() {
  const seconds = Object.assign(make("span", "0 s"), { ariaHidden: "true" });
  const begun = Date.now();
  show(make("section", null, make("p", "The desk works on it: ", seconds)), true);
  return setInterval(() => { seconds.textContent = `${Math.round((Date.now() - begun) / 1000)} s`; }, 1000);
}

// The value of a desk's answer; null for what isn't its own, as a page of nginx.
function valueOf(answer, text) {
  if (!(answer.headers.get("Content-Type") ?? "").startsWith("application/json")) return null;
  try {
    return JSON.parse(text);
  } catch {
    return null;
  }
}

// What makes the box that a question is answered by: it marks the form, so it is called for the newest question alone.
async function boxOf(path, body, boxOfAnswer, signal) {
  let answer, text;
  try {
    answer = await fetch(path, { method: "POST", body, signal });
    text = await answer.text();
  } catch {
    return () => refusal("The desk can't be reached", "no answer", "See that this computer is connected, and try again.");
  }
  const value = valueOf(answer, text);
  if (value === null) return () => refusalOfStatus(answer.status);
  return () => (answer.status === 200 ? boxOfAnswer(value, text) : refusalOfFault(value.fault));
}

// Asks one question. The one before it is left, and its answer, if it still comes, isn't shown.
async function ask(path, body, boxOfAnswer) {
  leave.abort();
  leave = new AbortController();
  newest += 1;
  const question = { number: newest, trip: tripChanges, line: lineChanges, hasLine: path === AUDIT };
  shownFor = null;
  clearMarks();
  const ticking = wait();
  const box = await boxOf(path, body, boxOfAnswer, leave.signal);
  clearInterval(ticking);
  if (question.number !== newest) return;
  show(box());
  shownFor = question;
  greyIfStale();
}

// A pasted text that is no JSON is sent alone, so that the desk names the fault as for a quotation.
function auditText() {
  let trip;
  try {
    trip = JSON.parse(tripText());
  } catch {
    return tripText();
  }
  return JSON.stringify({ line: byId("line").value.trim().replace(/\s+/g, " "), trip });
}

function fill(event) {
  clearMarks();
  const refused = fillForm();
  changed(event);
  if (refused === null) return;
  newest += 1;
  shownFor = null;
  show(refused);
}

byId("more").addEventListener("click", (event) => { addSector(); part(rows().at(-1), "to").focus(); changed(event); });
byId("fewer").addEventListener("click", (event) => { removeSector(); changed(event); });
byId("fill").addEventListener("click", fill);
byId("itinerary").addEventListener("input", changed);
byId("itinerary").addEventListener("submit", (event) => { event.preventDefault(); ask("/json/quote", tripText(), quotation); });
byId("ten").addEventListener("click", () => ask("/json/best/10", tripText(), tenCheapest));
byId("why").addEventListener("click", () => ask("/json/why", tripText(), reasons));
byId("audit").addEventListener("click", () => ask(AUDIT, auditText(), audited));
addSector();
