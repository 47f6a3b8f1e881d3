// Elements of the page.

export const byId = (id) => document.getElementById(id);

// Elements with text and children alone: nothing of an answer is read as a page.
export function make(name, text, ...children) {
  const made = document.createElement(name);
  if (text !== null) made.textContent = text;
  made.append(...children);
  return made;
}

export function withClass(made, name) {
  made.className = name;
  return made;
}

// The desk's words with a capital, and as a sentence of the page.
export const capital = (words) => words.charAt(0).toUpperCase() + words.slice(1);
export const sentence = (words) => `${capital(words)}.`;

// A box that says in words what is wrong, what can be done, and what the desk said.
export function refusal(title, said, advice) {
  const box = withClass(make("section", null, make("h2", title)), "refusal");
  if (advice) box.append(make("p", advice));
  box.append(withClass(make("p", said), "said"));
  return box;
}

function cell(text, isNumber) {
  return isNumber ? withClass(make("td", text), "number") : make("td", text);
}

export function table(caption, heads, lines) {
  const made = make("table", null, make("caption", caption));
  const head = make("tr", null);
  for (const [text] of heads) head.append(Object.assign(make("th", text), { scope: "col" }));
  const body = make("tbody", null);
  for (const line of lines) body.append(make("tr", null, ...line.map((text, i) => cell(text, heads[i][1]))));
  made.append(make("thead", null, head), body);
  return withClass(make("div", null, made), "scroll");
}
