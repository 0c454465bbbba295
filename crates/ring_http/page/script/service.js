// The page of a running ringd.
//
// It asks for the list of groups again and again, and follows the open group by long polls. If the service is gone it
// says so, and asks until the service is back. It only ever sends GET.
//
// The service sends the files of this folder as one script, /app.js. This is the first: it asks the service.

const BEAT = 400; // milliseconds between two looks at the list
const PATIENCE = 5000; // milliseconds after which a service that says nothing counts as gone
const WAIT = 5; // seconds that a long poll may take; one that was abandoned holds its connection no longer

const page = {
  groups: [], // the names, in order of creation
  said: new Map(), // the last answer about each group
  place: 0n, // the last place of the list; 0 before its first answer
  open: "", // the group that is open
  shown: null, // the answer about it that is shown
  heard: new Map(), // when this page saw its members come to know the leader
  drawn: "", // the group and the term whose election is drawn
  next: 0, // the group of the list that is asked for next
  stop: new AbortController(), // ends the long poll
};

const isKnown = () => page.place > 0n;
const one = (id) => document.getElementById(id);
const sleep = (time) => new Promise((done) => setTimeout(done, time));
const clock = () => new Date().toLocaleTimeString("en-GB");
const fault = (text, status) => Object.assign(new Error(text), { status });
const many = (count, word) => `${count} ${word}${count === 1 ? "" : "s"}`;

// The text of an answer. Its fault has a status: 0 if nothing answers, else that of an answer with a reason.
async function ask(path, patience, stop = new AbortController().signal) {
  const signal = AbortSignal.any([AbortSignal.timeout(patience), stop]);
  const gone = () => Promise.reject(fault("", 0));
  const answer = await fetch(path, { cache: "no-store", signal }).catch(gone);
  const text = await answer.text().catch(gone);
  if (answer.ok) return text;
  throw fault(text.trim(), answer.status);
}

// An answer as a value. Its place is kept as text, since it may be too great for a number of JavaScript.
async function read(path, patience, stop) {
  const text = await ask(path, patience, stop);
  const place = /"place":\s*(\d+)/.exec(text);
  return { ...JSON.parse(text), place: place ? place[1] : "0" };
}

// Keeps an answer about a group. Returns the earlier one if both say the same, at whatever places.
function remember(said) {
  const text = JSON.stringify({ ...said, place: "" });
  if (page.said.get(said.group)?.text !== text) page.said.set(said.group, { ...said, text });
  return page.said.get(said.group);
}
