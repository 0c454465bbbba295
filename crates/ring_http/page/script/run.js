// The loops: one looks at the list, one polls the open group.

const AT_ONCE = 12; // groups of the list that are asked for in a beat

// Follows the open group for ever: by long polls, and by a question now and then if nobody looks.
async function follow() {
  for (let [name, after] = ["", ""]; ; await sleep(document.hidden ? 4 * BEAT : 40)) {
    if (name !== page.open || page.stop.signal.aborted) {
      [name, after, page.stop] = [page.open, "", new AbortController()];
    }
    if (!page.groups.includes(name)) continue;
    const stop = page.stop.signal;
    const wait = after && !document.hidden ? WAIT : 0;
    try {
      const query = wait ? `?after=${after}&wait=${wait}` : "";
      const said = await read(`v1/groups/${name}${query}`, PATIENCE + 1000 * wait, stop);
      if (stop.aborted) continue;
      after = said.place;
      show(said);
    } catch (wrong) {
      if (wrong.status === undefined) console.error(wrong);
      after = "";
      if (!stop.aborted) await sleep(BEAT);
    }
  }
}

// Takes an answer about the list. Places only rise, until a service without a journal begins anew.
function take(said) {
  const place = BigInt(said.place);
  if (place < page.place) {
    page.said.clear();
    forgetShown();
    note("The service has begun anew, and counts its places from the beginning.");
  }
  [page.place, page.groups] = [place, said.groups];
  document.body.dataset.list = "known";
  forgetMissing();
  showGroups();
}

// Forgets what is shown of the open group, and ends its poll. The next answer about it is drawn anew.
function forgetShown() {
  page.shown = null;
  page.stop.abort();
  forgetElection();
}

// Forgets the groups that are not in the list. One that comes again is drawn anew, even if it says the same as before.
function forgetMissing() {
  const there = new Set(page.groups);
  for (const name of page.said.keys()) if (!there.has(name)) page.said.delete(name);
  if (!page.open || there.has(page.open)) return;
  if (page.shown) forgetShown();
  showParts(false);
  showTitle();
}

// Asks for some groups of the list in turn, so that 256 cost little more than a few. New ones are asked for first.
async function askSome() {
  const others = page.groups.filter((name) => name !== page.open);
  const fresh = others.filter((name) => !page.said.has(name));
  for (const _ of others.slice(0, AT_ONCE)) {
    remember(await read(`v1/groups/${fresh.shift() ?? others[page.next++ % others.length]}`, PATIENCE));
  }
  showGroups();
}

async function beat() {
  try {
    take(await read("v1/groups", PATIENCE));
    await ask("healthz", PATIENCE);
    tell("well");
    await askSome();
  } catch (wrong) {
    // a group that has just gone with its service is no fault of the service
    if (wrong.status === undefined) console.error(wrong);
    if (wrong.status !== 404) tell(wrong.status === 0 ? "gone" : "ill", wrong.message);
  }
}

// Opens the group that the address names, or the list. On a phone the focus must not stay with what is hidden.
function route() {
  if (location.hash && !location.hash.startsWith("#/")) return;
  const before = page.open;
  page.open = location.hash.slice(2);
  forgetShown();
  document.body.dataset.view = page.open ? "group" : "list";
  one("log").replaceChildren();
  write(one("name"), page.open);
  showParts(false);
  showGroups();
  showOthers();
  showTitle();
  if (page.open && one("groups").offsetParent === null) one("name").focus();
  if (!page.open) one("groups").children[page.groups.indexOf(before)]?.firstChild.focus();
}

addEventListener("hashchange", route);
document.addEventListener("visibilitychange", () => page.stop.abort());
one("election").addEventListener("toggle", () => page.shown && showElection(page.shown));
one("picture").addEventListener("error", missElection);
one("skip").addEventListener("click", () => one("main").focus());
route();
follow();
for (;; await sleep(document.hidden ? 4 * BEAT : BEAT)) await beat();
