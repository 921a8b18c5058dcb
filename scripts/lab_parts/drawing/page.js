// Shows the state at each row of the picture. Nothing is loaded: all that is shown stands in #data.
"use strict";
(() => {
  const data = JSON.parse(document.getElementById("data").textContent);
  const ROW = ["h", "who", "words", "by", "line", "place", "slot", "op", "image", "changes"];
  let below = 4;
  const rows = data.rows.map((it) => {
    const row = Object.fromEntries(ROW.map((name, index) => [name, it[index]]));
    row.y = below;
    below += row.h;
    row.changes = row.changes || {};
    return row;
  });
  const of = (id) => document.getElementById(id);
  const scroller = of("rows"), pieces = of("pieces"), chosen = of("chosen");
  const STATES = ["doesn't exist", "may exist", "is about to go"];
  const MOST = 200;
  let at = -1, found = [], state = {}, reached = -1;

  // The state behind a row: the changes of all rows up to it.
  function stateAt(row) {
    if (row < reached) { state = {}; reached = -1; }
    while (reached < row) Object.assign(state, rows[++reached].changes);
    return state;
  }

  function add(parent, name, text, kind) {
    const made = document.createElement(name);
    if (text !== undefined) made.textContent = text;
    if (kind) made.className = kind;
    parent.appendChild(made);
    return made;
  }

  // One fact of the state, under its key: marked where this row changed it.
  function fact(list, name, text, key, isCode) {
    add(list, "dt", name);
    const isChanged = key in rows[at].changes;
    const made = add(list, "dd", text, (isCode ? "code" : "") + (isChanged ? " changed" : ""));
    made.dataset.key = key;
    return made;
  }

  function list(title) {
    add(of("state"), "h2", title);
    return add(of("state"), "dl");
  }

  const some = (names) => (names.length ? names.join(", ") : "nobody");
  const command = (line) => `line ${line}: ${data.lines[line]}`;

  function showRow(row) {
    const made = add(of("state"), "dl");
    const say = (name, text, isCode) => { add(made, "dt", name); add(made, "dd", text, isCode ? "code" : ""); };
    if (row.op) say("log", row.op, true);
    if (row.place) say("history", "h " + row.place, true);
    if (row.line) {
      say("of", command(row.line), true);
      say("slot", row.slot === null ? "–" : String(row.slot));
      if (data.replies[row.line]) say("its reply", data.replies[row.line], true);
    }
    if (row.by !== row.line) say("made by", row.by ? command(row.by) : "the rounds at the end", true);
  }

  function showLock(made, key, lock) {
    const asked = lock.asked.map((it) => {
      const notice = state["notice/" + it];
      return `${notice.from} (notice ${it}, ${notice.heard ? "heard" : notice.lost ? "lost" : "not heard"})`;
    });
    fact(made, "lock", lock.owner || "free", key);
    if (asked.length) fact(made, "asked by", asked.join(", "), key);
    fact(made, "watched by", some(lock.watchers), key);
  }

  function showHeader(made, key, header) {
    const [whole, unit, count] = header.layout;
    const striped = count > 1 || unit < whole ? `, striped: units of ${unit} over ${count}` : "";
    fact(made, "size", `${header.size} bytes: ${header.objects} objects of ${whole}${striped}`, key);
    if (header.snaps.length) {
      fact(made, "snapshots", header.snaps.map(([, name, size]) => `${name} (${size} bytes)`).join(", "), key);
    }
  }

  // An object's bytes, and what each listed snapshot shows of it.
  function showObject(made, key, number, object, snaps) {
    fact(made, `object ${number}`, object.head === null ? "not there" : object.head || "no bytes", key, true);
    for (const [id, name] of snaps) {
      const kept = object.kept[id];
      const text = id > object.seq ? "as now" : kept === undefined ? "not there" : kept || "no bytes";
      fact(made, `– at ${name}`, text, key, true);
    }
    const gone = Object.keys(object.kept).filter((id) => !snaps.some((it) => it[0] === +id));
    if (gone.length) fact(made, "– kept", `for removed snapshots: ${gone.join(", ")}`, key);
  }

  const byNumber = (one, other) => one.number - other.number;

  function entries(prefix) {
    const found = [];
    for (const key in state) {
      if (!key.startsWith(prefix) || state[key] === null) continue;
      found.push({ key, number: +key.slice(prefix.length), value: state[key] });
    }
    return found.sort(byNumber);
  }

  // The objects of a map, those of one state in a row together: `0–3: 1`.
  function inShort(states) {
    const runs = [];
    for (const { number, value } of states) {
      const last = runs[runs.length - 1];
      if (last && last.value === value && last.end + 1 === number) last.end = number;
      else runs.push({ begin: number, end: number, value });
    }
    const texts = runs.map((it) => `${it.begin === it.end ? it.begin : `${it.begin}–${it.end}`}: ${it.value}`);
    return texts.slice(0, MOST).join(", ") + (runs.length > MOST ? " .." : "");
  }

  function showMap(made, prefix, snap, name) {
    const states = entries(`${prefix}/map/${snap}/`);
    if (!states.length) return;
    const shown = fact(made, name, inShort(states), `${prefix}/map/${snap}`, true);
    shown.title = STATES.map((it, number) => `${number}: ${it}`).join(", ");
    if (states.some((it) => it.key in rows[at].changes)) shown.classList.add("changed");
  }

  function showImage(prefix) {
    const [site, image] = prefix.split("/");
    const header = state[`${prefix}/header`], lock = state[`${prefix}/lock`];
    const made = list(`${data.names[prefix] || "image"} (image ${image} at site ${site})`);
    if (header) showHeader(made, `${prefix}/header`, header);
    else fact(made, "header", "there is none", `${prefix}/header`);
    if (lock) showLock(made, `${prefix}/lock`, lock);
    const snaps = header ? header.snaps : [];
    showMap(made, prefix, 0, "map");
    for (const [id, name] of snaps) showMap(made, prefix, id, `map at ${name}`);
    const objects = entries(`${prefix}/data/`);
    for (const it of objects.slice(0, MOST)) showObject(made, it.key, it.number, it.value, snaps);
    if (objects.length > MOST) add(of("state"), "p", `and ${objects.length - MOST} objects more`);
  }

  function showSites() {
    for (const site of ["a", "b"]) {
      const names = state[`${site}/names`], fenced = state[`${site}/fenced`];
      if (!names && !fenced) continue;
      const made = list(`site ${site}`);
      const told = Object.entries(names || {}).map(([name, id]) => `${name} is image ${id}`);
      if (names) fact(made, "names", told.join(", ") || "there is none", `${site}/names`);
      if (fenced) fact(made, "blocklist", fenced.join(", "), `${site}/fenced`);
    }
  }

  function showSessions() {
    const made = list("sessions");
    for (const key in state) {
      if (!key.startsWith("session/")) continue;
      const it = state[key], name = key.slice(8);
      const slots = Object.entries(it.slots).map(([slot, line]) => `slot ${slot}: ${command(line)}`);
      fact(made, `${name}.${it.life}`, it.runs ? slots.join("; ") || "has no command" : "is stopped", key);
    }
  }

  function showNotices() {
    const notices = entries("notice/");
    if (!notices.length) return;
    const made = list("notices");
    for (const { key, number, value: it } of notices.slice(-MOST)) {
      const says = { ask: "asks for the lock", released: "the lock is free", told: `says ${it.said}` }[it.kind];
      const how = it.heard > 1 ? `heard ${it.heard} times` : it.heard ? "heard" : it.lost ? "lost" : "not heard yet";
      fact(made, String(number), `${it.from} → ${it.to}: ${says}: ${how}`, key);
    }
  }

  function show() {
    const row = rows[at];
    stateAt(at);
    of("said").textContent = `${row.who || ""} ${row.words}`.trim();
    of("state").replaceChildren();
    showRow(row);
    const images = new Set();
    for (const key in state) {
      const found = /^[ab]\/\d+/.exec(key);
      if (found) images.add(found[0]);
    }
    for (const it of images) showImage(it);
    showSites();
    showSessions();
    showNotices();
  }

  function choose(row, isSeen) {
    at = Math.max(0, Math.min(rows.length - 1, row));
    const { y, h } = rows[at];
    chosen.hidden = false;
    chosen.style.top = `${y + (h > 20 ? h - 22 : 0)}px`;
    chosen.style.height = `${h > 20 ? 22 : h}px`;
    if (!isSeen) see(y, h);
    show();
    history.replaceState(null, "", `#row${at + 1}`);
  }

  function see(y, h) {
    const high = scroller.clientHeight - 66;
    if (y < scroller.scrollTop + h) scroller.scrollTop = Math.max(0, y - 3 * h);
    else if (y + 2 * h > scroller.scrollTop + high) scroller.scrollTop = y + 4 * h - high;
  }

  function rowAt(y) {
    let low = 0, high = rows.length - 1;
    while (low < high) {
      const middle = (low + high + 1) >> 1;
      if (rows[middle].y <= y) low = middle;
      else high = middle - 1;
    }
    return low;
  }

  // Whether a row has what is searched for: a number is that of a line.
  function has(row, wanted) {
    const line = /^(?:line )?(\d+)$/.exec(wanted);
    if (line) return row.by === +line[1] || row.line === +line[1];
    const texts = [row.who, row.words, row.op, row.image, data.lines[row.line], data.lines[row.by]];
    return texts.some((it) => it && it.toLowerCase().includes(wanted));
  }

  function search() {
    const wanted = of("search").value.trim().toLowerCase();
    found = wanted ? rows.flatMap((row, index) => (has(row, wanted) ? [index] : [])) : [];
    of("found").textContent = wanted ? `${found.length} found` : "";
  }

  function goOn(step) {
    if (!found.length) return;
    const next = step > 0 ? found.find((it) => it > at) : found.findLast((it) => it < at);
    choose(next === undefined ? found[step > 0 ? 0 : found.length - 1] : next);
    of("found").textContent = `${found.indexOf(at) + 1} of ${found.length}`;
  }

  const many = () => Math.max(1, Math.floor(scroller.clientHeight / 24) - 4);
  const KEYS = {
    ArrowDown: () => choose(at + 1), ArrowUp: () => choose(at - 1), j: () => choose(at + 1), k: () => choose(at - 1),
    PageDown: () => choose(at + many()), PageUp: () => choose(at - many()),
    Home: () => choose(0), End: () => choose(rows.length - 1),
    ArrowRight: () => scroller.scrollBy(80, 0), ArrowLeft: () => scroller.scrollBy(-80, 0),
    n: () => goOn(1), N: () => goOn(-1), "/": () => of("search").focus(),
  };

  document.addEventListener("keydown", (event) => {
    const isTyping = event.target === of("search");
    if (event.ctrlKey || event.metaKey || event.altKey) return;
    if (event.key === "Escape" && isTyping) scroller.focus();
    else if (!isTyping && KEYS[event.key] && !event.target.closest("aside, summary")) KEYS[event.key]();
    else return;
    event.preventDefault();
  });
  document.querySelector("form").addEventListener("submit", (event) => {
    event.preventDefault();
    search();
    goOn(1);
  });
  of("search").addEventListener("input", search);
  pieces.addEventListener("click", (event) => {
    choose(rowAt(event.clientY - pieces.getBoundingClientRect().top), true);
    scroller.focus({ preventScroll: true });
  });

  // The rows are drawn piece by piece, as they come near what is seen; for print all of them.
  function drawPiece(piece) {
    const index = +piece.dataset.index;
    const [begin, end] = [data.breaks[index], data.breaks[index + 1]];
    const svgs = data.panels.map(([name, wide, inner]) => {
      const size = `width="${wide}" height="${end - begin}" viewBox="0 ${begin} ${wide} ${end - begin}"`;
      return `<div class="${name}"><svg class="lab" ${size} aria-hidden="true">${inner[index]}</svg></div>`;
    });
    piece.innerHTML = svgs.join("");
    near.unobserve(piece);
  }

  const near = new IntersectionObserver(
    (seen) => seen.filter((it) => it.isIntersecting).forEach((it) => drawPiece(it.target)),
    { root: scroller, rootMargin: "800px 0px" },
  );
  for (let index = 0; index + 1 < data.breaks.length; index++) {
    const piece = document.createElement("div");
    piece.className = "piece";
    piece.dataset.index = index;
    piece.style.height = `${data.breaks[index + 1] - data.breaks[index]}px`;
    pieces.insertBefore(piece, chosen);
    near.observe(piece);
  }
  addEventListener("beforeprint", () => pieces.querySelectorAll(".piece:empty").forEach(drawPiece));

  if (rows.length) {
    const asked = /^#row(\d+)$/.exec(location.hash);
    choose(asked ? asked[1] - 1 : 0);
    scroller.focus({ preventScroll: true });
  }
})();
