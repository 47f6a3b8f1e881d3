// What the desk refuses, and what comes instead of an answer, in words.

import { byId, refusal, sentence } from "./elements.js";
import { markAll, part, placeOf, rows } from "./form.js";

// The desk's own faults. Its sentence is shown; what is marked is named by the words of the fault's text.

const TRIP_PLACES = {
  NotJson: () => byId("json"), NoSectors: () => byId("trip"), TooMany: () => byId("trip"), SameCity: (n) => placeOf("to", n),
  DatesFall: (n) => placeOf("day", n), SurfacePlace: (n) => placeOf("surface", n),
};

function placesOfTrip([, kind, first, second]) {
  if (kind === "Missing" || kind === "Bad") return [placeOf(first, Number(second))];
  return [TRIP_PLACES[kind]?.(Number(first))];
}

function placesOfCity([, , city]) {
  if (byId("json").value.trim() !== "") return [byId("json")];
  const reached = rows().map((row) => part(row, "to"));
  return [byId("from"), ...reached].filter((field) => field.value.trim().toUpperCase() === city);
}

function placesOfLine([, good]) {
  if (good !== "MISSING") byId("line").setSelectionRange(Number(good), Number(good) + 1);
  return [byId("line")];
}

const FAULTS = [
  ["TRIP ", "There is a fault in the itinerary", placesOfTrip],
  ["LINE ", "This is no calculation line", placesOfLine],
  ["UNKNOWN PLACE ", "An unknown place", placesOfCity],
  ["NO EDITION ", "No tariff is in force", () => [placeOf("sale", 0)]],
];

export function refusalOfFault({ text, words }) {
  const [, title, placesOf] = FAULTS.find(([begin]) => text.startsWith(begin)) ?? ["", "The desk doesn't take this", () => []];
  markAll(placesOf(text.split(" ")));
  return refusal(title, text, sentence(words));
}

// What comes instead of an answer, by its status.

const ASK_THE_KEEPER = "if it stays so, tell whoever runs the desk.";

const REFUSALS = {
  403: ["Not from here", `This address isn't let in: ${ASK_THE_KEEPER}`],
  404: ["There is no such question", `This page and the desk don't fit together: load the page anew; ${ASK_THE_KEEPER}`],
  413: ["Too long", "A question is at most 16 megabytes: ask about one itinerary."],
  429: ["Too many questions", "This address asks more than it may at once: wait some seconds, and ask again."],
  500: ["The desk has failed", `Ask again; ${ASK_THE_KEEPER}`],
  502: ["No desk could answer", `Each desk is busy or stopped, or the one that had this question broke off: ask again; ${ASK_THE_KEEPER}`],
  503: ["The desk takes no questions now", `Nothing was lost. Ask again; ${ASK_THE_KEEPER}`],
  504: ["The answer takes too long", "The desk had the question for as long as this address waits, and it was given up. Other questions are answered: "
    + "ask about fewer sectors, or again later."],
  507: ["The desk has no memory left", "Ask again in a moment."],
};

const OTHER_REFUSAL = ["The desk didn't take the question", `Load the page anew, and ask again; ${ASK_THE_KEEPER}`];

export function refusalOfStatus(status) {
  const [title, advice] = REFUSALS[status] ?? OTHER_REFUSAL;
  return refusal(title, `status ${status}`, advice);
}
