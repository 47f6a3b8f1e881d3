// The itinerary's form: what was entered, and the marks at what is wrong with it.

import { byId, make, withClass, refusal } from "./elements.js";

const MOST_SECTORS = 16;

function choice(labels, name) {
  const select = make("select", null);
  for (const [value, text] of labels) select.append(Object.assign(make("option", text), { value }));
  return Object.assign(select, { name });
}

function labelled(text, field) {
  return make("label", text + " ", field);
}

function field(name, size, kind) {
  return Object.assign(make("input", null), { name, maxLength: size, className: kind, size });
}

function sectorRow(number) {
  const row = withClass(make("div", null), "row sector");
  row.setAttribute("role", "group");
  row.setAttribute("aria-label", `Sector ${number}`);
  row.append(make("b", String(number)),
    labelled("To", field("to", 3, "code")), labelled("Carrier", field("carrier", 2, "code")),
    labelled("Day", field("day", 10, "")),
    labelled("Cabin", choice([["Y", "Y economy"], ["C", "C business"], ["F", "F first"]], "cabin")),
    labelled("Routing", choice([["", "as flown"], ["AT", "AT Atlantic"], ["PA", "PA Pacific"]], "over")),
    labelled("There", choice([["stop", "stopover"], ["transfer", "transfer"]], "stop")),
    labelled("Surface", Object.assign(make("input", null), { type: "checkbox", name: "surface" })));
  return row;
}

export const rows = () => Array.from(byId("sectors").children);

export function addSector() {
  if (rows().length < MOST_SECTORS) byId("sectors").append(sectorRow(rows().length + 1));
}

export function removeSector() {
  if (rows().length > 1) rows().pop().remove();
}

export const part = (row, name) => row.querySelector(`[name=${name}]`);

function tripOfForm() {
  const code = (input) => input.value.trim().toUpperCase();
  return { sale: byId("sale").value.trim(), from: code(byId("from")), sectors: rows().map((row) => ({
    to: code(part(row, "to")), carrier: code(part(row, "carrier")), day: part(row, "day").value.trim(),
    cabin: part(row, "cabin").value, over: part(row, "over").value, stop: part(row, "stop").value === "stop",
    surface: part(row, "surface").checked })) };
}

// The itinerary that is asked about, as text.
export function tripText() {
  const pasted = byId("json").value;
  return pasted.trim() === "" ? JSON.stringify(tripOfForm()) : pasted;
}

// What keeps a pasted text out of the form, as a refusal in words; or null.
function refusalOfPasted(trip) {
  if (trip === undefined) return refusal("This is no JSON", "Nothing was put into the form.", "Paste the whole object, from { to }.");
  if (trip === null || typeof trip !== "object" || !Array.isArray(trip.sectors)) {
    return refusal("This is no itinerary", "Nothing was put into the form.", "An itinerary is an object with sale, from and sectors.");
  }
  if (trip.sectors.length > MOST_SECTORS) {
    return refusal("Too many sectors", "Nothing was put into the form.",
      `An itinerary has at most ${MOST_SECTORS} sectors, and this one has ${trip.sectors.length}.`);
  }
  return null;
}

function fillSector(row, sector) {
  for (const name of ["to", "carrier", "day"]) part(row, name).value = sector?.[name] ?? "";
  part(row, "cabin").value = sector?.cabin ?? "Y";
  part(row, "over").value = sector?.over ?? "";
  part(row, "stop").value = sector?.stop === false ? "transfer" : "stop";
  part(row, "surface").checked = sector?.surface === true;
}

// Puts the pasted itinerary into the form. What keeps it out is answered, and marked.
export function fillForm() {
  let trip;
  try {
    trip = JSON.parse(byId("json").value);
  } catch {
    trip = undefined;
  }
  const refused = refusalOfPasted(trip);
  if (refused) {
    markAll([byId("json")]);
    return refused;
  }
  byId("sale").value = trip.sale ?? "";
  byId("from").value = trip.from ?? "";
  byId("sectors").replaceChildren();
  for (const sector of trip.sectors) {
    addSector();
    fillSector(rows().at(-1), sector);
  }
  if (rows().length === 0) addSector();
  byId("json").value = "";
  byId("paste").open = false;
  byId("sale").focus();
  return null;
}

// Marks.

export function clearMarks() {
  for (const marked of document.querySelectorAll(".wrong")) {
    marked.classList.remove("wrong");
    marked.removeAttribute("aria-invalid");
  }
}

export function markAll(found) {
  for (const marked of found) {
    if (!marked) continue;
    marked.classList.add("wrong");
    marked.setAttribute("aria-invalid", "true");
  }
  if (found[0]) found[0].focus();
}

// The place of a member in what was entered: the pasted text as a whole, or its field.
export function placeOf(member, number) {
  if (byId("json").value.trim() !== "") return byId("json");
  if (member === "sale" || member === "from") return byId(member);
  const row = rows()[number - 1];
  return row ? part(row, member) ?? row : byId("trip");
}
