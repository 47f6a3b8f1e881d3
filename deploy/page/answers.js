// The desk's answers, as boxes of the page. Every figure and every sentence about a rule is the desk's own.

import { capital, make, sentence, table, withClass } from "./elements.js";

const editionOf = (edition) => `edition ${edition.number}, effective ${edition.effective}`;

// What the desk sent, for whoever wants to check it.
function asSent(text) {
  return make("details", null, make("summary", "As the desk wrote it"), make("pre", text));
}

function noFare(edition) {
  const box = make("section", null, make("h2", capital(editionOf(edition))),
    make("p", "No construction of this itinerary is lawful in this edition: no fare."));
  box.id = "no-fare";
  return box;
}

const calculation = (line) => withClass(make("p", line), "calculation");

// The worksheet.

function milesOf(miles) {
  return miles === null ? ["direct", "", ""] : [miles.net, miles.mpm, miles.surcharge === 0 ? "none" : `${miles.surcharge} %`];
}

function partOf(part, place) {
  const { carrier, class: cabin, kind, rule, record } = part.fare;
  const higher = part.hip === null ? "none" : `${part.hip.from}-${part.hip.to} ${part.hip.amount}`;
  return [place + 1, `${part.from}-${part.to}`, part.sectors.join(" "), part.unit, part.back ? "back" : "out",
    carrier + cabin + kind + (rule ?? ""), record, part.filed, ...milesOf(part.miles), higher, part.amount];
}

const KINDS = { OW: "one way", RT: "round trip", CT: "circle trip", OJ: "open jaw" };

const MINIMA = { BH: "backhaul minimum", CT: "circle minimum" };

const hundredths = (amount) => Math.round(Number(amount) * 100);

function unitOf(unit) {
  const plus = hundredths(unit.price) - hundredths(unit.sum);
  return [unit.number, KINDS[unit.kind] ?? unit.kind, unit.sum,
    unit.minimum === null ? "none" : `${MINIMA[unit.minimum.check]} ${unit.minimum.amount}`,
    plus > 0 ? (plus / 100).toFixed(2) : "none", unit.price];
}

const PART_HEADS = [["Part"], ["From and to"], ["Sectors"], ["Unit"], ["Priced"], ["Fare"], ["Record"], ["Filed", 1], ["Miles", 1],
  ["Permitted", 1], ["Surcharge"], ["Higher point"], ["Amount", 1]];

const UNIT_HEADS = [["Unit"], ["Kind"], ["Sum", 1], ["Minimum"], ["Plus-up", 1], ["Price", 1]];

export function quotation({ edition, quotation: quoted }, text) {
  if (quoted === null) return noFare(edition);
  const { total, local, roe } = quoted;
  return make("section", null, make("h2", capital(editionOf(edition))), calculation(quoted.line),
    withClass(make("p", `NUC ${total}, ${local.currency} ${local.amount} at ${roe}`), "total"),
    table("Parts", PART_HEADS, quoted.parts.map(partOf)), table("Units", UNIT_HEADS, quoted.units.map(unitOf)), asSent(text));
}

// The ten cheapest.

export function tenCheapest({ edition, best }) {
  if (best.length === 0) return noFare(edition);
  const list = withClass(make("ol", null), "best");
  best.forEach(({ line, total }, i) => {
    const over = hundredths(total) - hundredths(best[0].total);
    list.append(make("li", null, make("b", `${i + 1}. NUC ${total}`),
      make("div", over === 0 ? "the least" : `${(over / 100).toFixed(2)} over the least`), withClass(make("div", line), "said")));
  });
  return make("section", null, make("h2", `The cheapest in ${editionOf(edition)}`), list);
}

// The audit.

const VERDICTS = { "OTHER TRIP": "Of another trip", "NO RECORD": "No such fare", BROKEN: "Not lawful", FIGURES: "The figures are wrong" };

function titleOf(verdict) {
  if (verdict.name !== "LAWFUL") return VERDICTS[verdict.name] ?? verdict.name;
  return hundredths(verdict.over) === 0 ? "Lawful, and of the least price" : "Lawful, but not of the least price";
}

export function audited({ edition, verdict }) {
  const box = make("section", null, make("h2", titleOf(verdict)), make("p", sentence(verdict.words)));
  if (verdict.name === "LAWFUL") box.append(make("p", `It costs NUC ${verdict.price}.`));
  if (verdict.name === "BROKEN") box.append(make("p", `That is rule ${verdict.rule}.`));
  box.append(withClass(make("p", sentence(editionOf(edition))), "quiet"));
  box.id = "verdict";
  return box;
}

// Why it isn't cheaper: what would have to be otherwise, where, and what that would save.

const OTHERWISE = {
  ADVANCE: "If no rule asked for days between sale and departure",
  STAY: "If no rule asked for a shortest or a longest stay",
  STOPOVERS: "If no rule limited the stopovers",
  TRANSFERS: "If no rule limited the transfers",
  SURCHARGE: "If every rule allowed a mileage surcharge",
  UNIT: "If all fares could be combined in a unit",
  ENDS: "If all fares could be combined end on end",
};

function reasonOf({ kind, total, saves, line, broken }) {
  return make("li", null, make("b", OTHERWISE[kind] ?? kind),
    make("div", saves === null ? `There would be a fare: NUC ${total}.` : `It would cost NUC ${total}, and save ${saves}.`),
    make("div", `What bars it: ${broken.words} (rule ${broken.rule}).`), withClass(make("div", line), "said"));
}

export function reasons({ edition, total, without }) {
  const title = total === null ? "Why there is no fare" : "Why it isn't cheaper";
  const now = total === null ? "There is no fare as the rules stand." : `As the rules stand it costs NUC ${total}.`;
  const box = make("section", null, make("h2", title), make("p", `${now} Each condition of the rules is left out alone, and the trip quoted again:`));
  box.append(without.length === 0
    ? make("p", "No condition of a rule alone makes a difference.")
    : withClass(make("ol", null, ...without.map(reasonOf)), "best"));
  box.append(withClass(make("p", sentence(editionOf(edition))), "quiet"));
  box.id = "reasons";
  return box;
}
