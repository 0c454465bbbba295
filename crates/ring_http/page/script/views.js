// Functions that show a part of the page each.

const TERMS = 10; // terms that are shown at first
const EVENTS = 8; // lines of what this page has seen

// Sets a text if it is another one, so that a screen reader does not say the same again.
function write(element, text) {
  if (element.textContent !== text) element.textContent = text;
}

// Adds a line to what this page has seen. Of lines that only count who knows the leader, the last one is kept.
function note(text) {
  const line = make("li");
  line.append(make("time", {}, clock()), make("span", {}, text));
  const counts = (other) => other?.lastChild.textContent.startsWith("Now known");
  if (counts(line) && counts(one("log").firstChild)) one("log").firstChild.remove();
  one("log").prepend(line);
  while (one("log").children.length > EVENTS) one("log").lastChild.remove();
}

// Shows the algorithm of a group in words.
function showKind(said) {
  one("kind").hidden = !said.algorithm;
  write(one("kind"), `Algorithm: ${KINDS[said.algorithm] ?? said.algorithm}`);
}

// Notes when this page saw members come to know the leader of the last term. Whoever knew it before has no time.
function noteHeard(old, said) {
  const isSame = old?.terms.length === said.terms.length;
  if (!isSame) page.heard.clear();
  const hears = (number) => old && !(isSame && old.informed.includes(number)) && !page.heard.has(number);
  for (const number of said.informed.filter(hears)) page.heard.set(number, clock());
}

function memberRow(said, member) {
  const row = make("tr", isLeader(said, member) ? { class: "leads" } : {});
  const part = make("td", { class: "part" }, lastTerm(said) ? partOf(said, member) : "no term yet");
  const heard = knows(said, member) && page.heard.get(member.number);
  if (heard) part.append(", heard at ", make("time", {}, heard));
  row.append(make("th", { scope: "row" }, String(member.number)), make("td", {}, String(member.weight || "none")), part);
  return row;
}

function termLine(said, term) {
  const none = term === lastTerm(said) ? "no leader yet" : "closed without a leader";
  const line = make("li", { class: term.leader ? "led" : "open" });
  line.append(make("span", { class: "term" }, `Term ${term.term}`));
  line.append(make("span", {}, term.leader ? `leader ${spell(term.leader)}` : none));
  return line;
}

function showTerms(said) {
  const lines = [...said.terms].reverse().map((term) => termLine(said, term));
  one("terms").replaceChildren(...lines.slice(0, TERMS));
  one("earlier").replaceChildren(...lines.slice(TERMS));
}

// Draws the election of the last term, if somebody has opened it and it is another term than before.
function showElection(said) {
  const number = lastTerm(said)?.term;
  one("election").hidden = !number;
  const wanted = `${said.group} ${number}`;
  if (!one("election").open || !number || page.drawn === wanted) return;
  page.drawn = wanted;
  const picture = one("picture");
  one("chart").hidden = false;
  one("no-picture").hidden = true;
  picture.alt = `An election of the ring of term ${number} of ${said.group}: its messages from the first to the last.`;
  // (the place makes it another address, so that no browser shows an older picture)
  picture.src = `v1/groups/${said.group}/election.svg?place=${said.place}`;
}

// Forgets the picture of an election, so that none is shown at another group or at a service that has begun anew.
function forgetElection() {
  page.drawn = "";
  one("picture").removeAttribute("src");
}

// There is no picture. The next change, or opening it again, asks once more.
function missElection() {
  page.drawn = "";
  one("chart").hidden = true;
  one("no-picture").hidden = false;
}

// Shows an answer about the open group, and notes what has changed since the last one.
function show(answer) {
  const said = remember(answer);
  write(one("place"), answer.place);
  write(one("heard"), clock());
  if (page.shown === said) return;
  const words = inWords(said) + (lastTerm(said)?.leader ? `, ${known(said)}.` : ".");
  const sentence = words[0].toUpperCase() + words.slice(1);
  const news = page.shown ? changes(page.shown, said) : [sentence];
  if (news.length) note(news.join(" "));
  noteHeard(page.shown, said);
  page.shown = said;
  write(one("leader"), sentence);
  showKind(said);
  drawRing(said);
  showElection(said);
  one("members").replaceChildren(...said.members.map((member) => memberRow(said, member)));
  showTerms(said);
  showParts(true);
  showGroups();
  showTitle();
}

// Shows the parts of the open group, or that there is none. Before the first answer nobody knows whether there is one.
function showParts(there) {
  const coming = !isKnown() || page.groups.includes(page.open);
  one("missing").hidden = there || coming;
  one("parts").hidden = one("foot").hidden = one("leader").hidden = !there;
  if (!there) one("kind").hidden = true;
}

// A line of the list. It is kept as long as its group, and so keeps the focus.
function groupLine(name) {
  const line = make("li", { "data-group": name });
  const link = make("a", { href: `#/${name}` });
  const mark = draw("svg", { class: "mark", viewBox: "0 0 40 40", "aria-hidden": "true" });
  link.append(mark, make("span", { class: "title" }, name), make("span", { class: "words" }));
  line.append(link);
  return line;
}

function showGroups() {
  const list = one("groups");
  const lines = new Map([...list.children].map((line) => [line.dataset.group, line]));
  page.groups.forEach((name, place) => {
    const line = lines.get(name) ?? groupLine(name);
    const said = page.said.get(name);
    lines.delete(name);
    if (list.children[place] !== line) list.insertBefore(line, list.children[place] ?? null);
    line.firstChild.setAttribute("aria-current", name === page.open ? "page" : "false");
    if (line.said === said) return;
    line.said = said;
    line.dataset.state = stateOf(said);
    write(line.querySelector(".words"), said ? `${inWords(said)}\n${many(said.members.length, "member")}` : "");
    drawMark(line.querySelector(".mark"), said);
  });
  for (const line of lines.values()) line.remove();
  showCount();
}

// Shows how many groups there are, and once each was asked for, how many have a leader.
function showCount() {
  const led = page.groups.filter((name) => stateOf(page.said.get(name)) === "led").length;
  const leads = page.groups.every((name) => page.said.has(name)) ? `, ${led} with a leader` : "";
  write(one("count"), page.groups.length ? many(page.groups.length, "group") + leads : "");
}

// Shows how the service is: well, ill (it answers, and says what is wrong) or gone.
function tell(service, reason = "") {
  const was = document.body.dataset.service;
  if (was === service && service !== "ill") return;
  document.body.dataset.service = service;
  write(one("service"), { well: "Connected", ill: "Not well", gone: "No answer" }[service]);
  one("banner").hidden = service === "well";
  const other = others.length ? " Another process may have taken over." : "";
  const last = isKnown() ? " shows its last answers, and" : "";
  const gone = `The service has not answered since ${clock()}. This page${last} keeps asking.${other}`;
  write(one("banner"), { well: "", ill: `The service is not well: ${reason}.`, gone }[service]);
  if (service === "gone") note("The service does not answer.");
  if (was === "gone") note("The service answers again.");
  if (was === "gone" && page.shown) showElection(page.shown);
  showOthers();
  showTitle();
}

function showTitle() {
  const warning = { ill: "(not well) ", gone: "(no answer) " }[document.body.dataset.service] ?? "";
  const group = page.shown ? `${page.open}: ${inWords(page.shown)} - ` : "";
  document.title = `${warning}${group}ringd`;
}
