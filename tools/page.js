"use strict";
// The machine of x86-TSO for one test, with the file's own values: memory, a first-in first-out buffer for each thread. And
// what shows it. `window.page` is what tests of the page use.
(() => {
  const data = JSON.parse(document.getElementById("data").textContent);
  const KIND = { p: "push", d: "drain", r: "read", f: "fence", e: "exchange" };
  const ACT = { store: "push", load: "read", fence: "fence", exchange: "exchange" };
  const $ = (id) => document.getElementById(id);

  function make(tag, more, ...inside) {
    const element = Object.assign(document.createElement(tag), more);
    element.append(...inside);
    return element;
  }

  // ---- the machine

  function begun() {
    const idle = () => ({ done: 0, buffer: [], reads: {}, registers: {} });
    const state = { memory: data.locations.map(() => 0), threads: data.bodies.map(idle) };
    state.threads.forEach((_, thread) => holdConstants(state, thread));
    return state;
  }

  /** A constant is held as soon as the action before it is done. */
  function holdConstants(state, thread) {
    const mine = state.threads[thread];
    for (const [place, register, value] of data.constants[thread]) if (place === mine.done) mine.registers[register] = value;
  }

  function newest(state, thread, loc) {
    return state.threads[thread].buffer.filter((write) => write.loc === loc).pop();
  }

  /** For each thread its next instruction and the drain of its oldest write, and the reason where one is not enabled. */
  function choices(state) {
    return state.threads.flatMap((mine, thread) => {
      const action = data.bodies[thread][mine.done];
      const next = { thread, place: mine.done, kind: action ? ACT[action.kind] : "done", reason: null };
      if (!action) next.reason = `P${thread} has done all its instructions.`;
      else if ((action.kind === "fence" || action.kind === "exchange") && mine.buffer.length)
        next.reason = `P${thread}'s ${action.kind} waits until its buffer is empty.`;
      const oldest = mine.buffer[0];
      const drain = { thread, place: oldest ? oldest.place : null, kind: "drain", reason: oldest ? null : `P${thread}'s buffer is empty.` };
      return [next, drain];
    });
  }

  const enabled = (state) => choices(state).filter((choice) => choice.reason === null);

  const same = (one, other) => one.thread === other.thread && one.place === other.place && one.kind === other.kind;

  /** The moment after an event: the state, the event with what it read, and what is said of it. */
  function after(before, event) {
    const state = structuredClone(before);
    const mine = state.threads[event.thread];
    const action = data.bodies[event.thread][event.place];
    const told = { P: `P${event.thread}`, x: data.locations[action.loc], w: action.value, r: action.reg };
    let sentence = event.kind;
    if (event.kind === "drain") {
      mine.buffer.shift();
      state.memory[action.loc] = action.value;
    } else {
      mine.done += 1;
      if (event.kind === "push") mine.buffer.push({ loc: action.loc, value: action.value, place: event.place });
      if (event.kind === "read" || event.kind === "exchange") {
        const waiting = newest(before, event.thread, action.loc);
        told.v = waiting ? waiting.value : before.memory[action.loc];
        mine.reads[event.place] = mine.registers[action.reg] = told.v;
        if (event.kind === "read") sentence = waiting ? "buffer" : "memory";
        else state.memory[action.loc] = action.value;
      }
      holdConstants(state, event.thread);
    }
    const words = data.sentences[sentence].replace(/\{(\w)\}/g, (_, key) => told[key]);
    return { state, event: { thread: event.thread, place: event.place, kind: event.kind, value: told.v }, words };
  }

  const first = () => ({ state: begun(), event: null, words: data.sentences.start });

  /** Whether an atom holds; undefined as long as its read is to come. */
  function atomHolds(state, atom) {
    if (atom.place === null) return atom.holds;
    const value = state.threads[atom.thread].reads[atom.place];
    return value === undefined ? undefined : value === atom.value;
  }

  const all = (values) => (values.includes(false) ? false : values.includes(undefined) ? undefined : true);
  const any = (values) => (values.includes(true) ? true : values.includes(undefined) ? undefined : false);
  const conditionHolds = (state) => any(data.groups.map((group) => all(group.map((atom) => atomHolds(state, atom)))));

  // ---- lines of events

  const short = (event) => `${event.thread}${event.kind[0]}${event.place}`;

  function long(word) {
    const found = /^(\d)([pdrfe])(\d+)$/.exec(word);
    return found && { thread: +found[1], kind: KIND[found[2]], place: +found[3] };
  }

  function line(event) {
    const value = event.value === undefined ? "" : ` ${event.value}`;
    return `P${event.thread} ${event.place} ${event.kind}${value}`;
  }

  /** The moments of some events; at the first that is not enabled it ends, with the reason. */
  function follow(events) {
    const moments = [first()];
    for (const event of events) {
      const { state } = moments[moments.length - 1];
      if (!event || !enabled(state).some((choice) => same(choice, event))) return { moments, wrong: moments.length };
      const moment = after(state, event);
      if (event.value !== undefined && event.value !== moment.event.value) return { moments, wrong: moments.length };
      moments.push(moment);
    }
    return { moments, wrong: null };
  }

  function pasted(text) {
    const lines = text.split("\n").map((words) => words.trim()).filter(Boolean);
    if (/^%execution\s+0*1$/.test(lines[0] || "")) lines.shift();
    return lines.map((words) => {
      const found = /^P(\d)\s+(\d+)\s+(push|drain|fence|(?:read|exchange)\s+(\d+))$/.exec(words);
      if (!found) return null;
      return { thread: +found[1], place: +found[2], kind: found[3].split(/\s/)[0], value: found[4] === undefined ? undefined : +found[4] };
    });
  }

  // ---- what is shown

  let moments = [first()];
  let at = 0;
  let row = null; // of the table of outcomes; null while the reader explores
  let timer = null;

  function choose(number) {
    row = number;
    moments = follow(data.runs[number - 1].split(" ").filter(Boolean).map(long)).moments;
    at = 0;
  }

  function take(event) {
    stop();
    row = null;
    moments = moments.slice(0, at + 1);
    moments.push(after(moments[at].state, event));
    at += 1;
    show();
  }

  function go(step) {
    at = Math.max(0, Math.min(moments.length - 1, step));
    show();
  }

  function stop() {
    clearInterval(timer);
    timer = null;
    $("play").textContent = "Play";
  }

  function play() {
    if (timer) return stop();
    if (at === moments.length - 1) go(0);
    $("play").textContent = "Pause";
    timer = setInterval(() => (at < moments.length - 1 ? go(at + 1) : stop()), 1100);
  }

  function address() {
    const words = row ? `row=${row}` : `events=${moments.slice(1).map((moment) => short(moment.event)).join(".")}`;
    return `#${words}&step=${at}`;
  }

  /** What the address asks for: a row or events, and a step. */
  function followAddress() {
    const words = new URLSearchParams(location.hash.slice(1));
    const number = Number(words.get("row"));
    if (words.has("events")) {
      row = null;
      moments = follow(words.get("events").split(".").filter(Boolean).map(long)).moments;
    } else if (data.runs.some((run) => run !== null)) choose(data.runs[number - 1] ? number : 1 + data.runs.findIndex((run) => run !== null));
    at = Math.max(0, Math.min(moments.length - 1, Number(words.get("step")) || 0));
    show(isPlace());
  }

  /** Whether the address names a place of the page, as that of a cycle. */
  const isPlace = () => location.hash.length > 1 && $(location.hash.slice(1)) !== null;

  function remember() {
    try {
      history.replaceState(null, "", address());
    } catch {
      // some browsers refuse an address that changes too often; the next step tells it again
    }
  }

  const cell = (words, changed, kind = "") => make("span", { className: `cell mono ${kind}${changed ? " changed" : ""}` }, words);

  function showThread(thread, state, before, event) {
    const mine = state.threads[thread];
    const isNow = event !== null && event.thread === thread;
    data.bodies[thread].forEach((_, place) => {
      const name = place === mine.done ? "next" : place < mine.done ? "done" : "";
      $(`i${thread}-${place}`).className = name + (isNow && event.place === place ? " now" : "");
    });
    const registers = Object.entries(mine.registers).map(([name, value]) =>
      cell(`${name}=${value}`, value !== before.threads[thread].registers[name]));
    $(`registers${thread}`).replaceChildren(...(registers.length ? registers : ["–"]));
    const pushed = isNow && event.kind === "push" ? mine.buffer.length - 1 : -1;
    const boxes = mine.buffer.map((write, number) => cell(`${data.locations[write.loc]}=${write.value}`, number === pushed, "write"));
    $(`buffer${thread}`).replaceChildren(...(boxes.length ? boxes : ["–"]));
  }

  function showMemory(state, event) {
    const writes = event && (event.kind === "drain" || event.kind === "exchange") ? data.bodies[event.thread][event.place].loc : -1;
    $("memory").replaceChildren(...data.locations.map((name, loc) => cell(`${name}=${state.memory[loc]}`, loc === writes)));
  }

  function showCondition(state) {
    const words = [];
    data.groups.forEach((group, number) => {
      if (number) words.push(" \\/ ");
      group.forEach((atom, place) => {
        if (place) words.push(" /\\ ");
        const holds = atomHolds(state, atom);
        words.push(make("span", { className: `atom ${holds === undefined ? "open" : holds}` }, atom.words));
      });
    });
    const holds = conditionHolds(state);
    const said = holds === undefined ? "is open" : holds ? "is true" : "is false";
    const whole = make("code", {}, data.negated ? "~exists (" : "exists (", ...words, ")");
    const coloured = { className: `atom ${holds === undefined ? "open" : holds}`, id: "holds" };
    $("condition").replaceChildren(whole, " ", make("span", coloured, said));
  }

  function choiceWords(choice) {
    const action = data.bodies[choice.thread][choice.place];
    if (choice.kind === "drain") return `${data.locations[action.loc]}=${action.value} to memory`;
    return data.instructions[choice.thread][choice.place];
  }

  function showChoices(state) {
    const given = choices(state);
    data.bodies.forEach((_, thread) => {
      const mine = given.filter((choice) => choice.thread === thread).map((choice) => {
        const why = make("span", { className: "reason" }, choice.reason || "");
        if (!data.bodies[thread][choice.place]) return [why];
        const more = { className: "choice", disabled: choice.reason !== null, onclick: () => take(choice) };
        const taken = make("button", more, choiceWords(choice));
        return choice.reason === null ? [taken] : [taken, why];
      });
      $(`choices${thread}`).replaceChildren(...mine.flat());
    });
    $("random").disabled = !enabled(state).length;
  }

  function showEvents() {
    const items = moments.slice(1).map((moment, number) =>
      make("li", { className: number + 1 === at ? "now" : number + 1 > at ? "later" : "", onclick: () => go(number + 1) }, moment.words));
    $("events").replaceChildren(...items);
    const now = $("events").children[at - 1];
    if (now) $("events").scrollTop = Math.max(0, now.offsetTop - $("events").offsetTop - 120);
    const isShown = row && data.by[row - 1] === "show";
    const by = isShown ? "from perple_tool show" : "found by the page's maker, judged legal by perple_tool judge";
    $("steps").querySelector("h2").textContent = row ? `A run with outcome ${row}, ${by}` : "The events so far";
    $("lines").value = ["%execution 1", ...moments.slice(1, at + 1).map((moment) => line(moment.event)), ""].join("\n");
  }

  function show(keepsAddress = false) {
    const { state, event, words } = moments[at];
    const before = at ? moments[at - 1].state : state;
    data.bodies.forEach((_, thread) => showThread(thread, state, before, event));
    showMemory(state, event);
    showCondition(state);
    showChoices(state);
    showEvents();
    $("words").textContent = words;
    $("step").textContent = `step ${at} of ${moments.length - 1}`;
    Object.assign($("slider"), { max: moments.length - 1, value: at });
    for (const id of ["first", "back"]) $(id).disabled = at === 0;
    for (const id of ["forward", "last"]) $(id).disabled = at === moments.length - 1;
    for (const each of document.querySelectorAll("#outcomes tr")) each.classList.toggle("chosen", row !== null && each.id === `row${row}`);
    document.body.classList.toggle("explores", row === null);
    $("play").disabled = moments.length === 1;
    if (!keepsAddress) remember();
  }

  // ---- what is there only with this program

  const button = (id, words, onclick) => make("button", { id, onclick, type: "button" }, words);

  function addState() {
    const line = (name, title) => [
      make("tr", { className: name + "head" }, ...data.bodies.map(() => make("th", {}, title))),
      make("tr", { className: name }, ...data.bodies.map((_, thread) => make("td", { id: name + thread }))),
    ];
    const memory = [make("tr", {}, make("th", { colSpan: data.bodies.length }, "memory")),
      make("tr", {}, make("td", { id: "memory", colSpan: data.bodies.length }))];
    const parts = [...line("registers", "registers"), ...line("buffer", "buffer"), ...memory, ...line("choices", "may come next")];
    $("program").append(make("tfoot", {}, ...parts));
  }

  function addControls() {
    const slider = make("input", { id: "slider", type: "range", min: 0, oninput: () => go(+$("slider").value) });
    slider.setAttribute("aria-label", "step of the run");
    const words = make("p", { id: "words" });
    words.setAttribute("aria-live", "polite");
    $("controls").append(
      make("div", { className: "bar" }, button("first", "First", () => go(0)), button("back", "Back", () => go(at - 1)),
        button("forward", "Forward", () => go(at + 1)), button("last", "Last", () => go(moments.length - 1)), button("play", "Play", play),
        slider, make("span", { id: "step" })), words);
    $("machine").append(
      make("div", { className: "bar" }, button("anew", "Explore from the beginning", anew), button("random", "A random event", random)),
      make("p", { className: "note keys" }, "Keys: left and right for a step, Home and End, space to play. ",
        "At each step any event that may come next can be taken."));
  }

  function anew() {
    stop();
    row = null;
    moments = [first()];
    go(0);
  }

  function random() {
    const given = enabled(moments[at].state);
    take(given[Math.floor(Math.random() * given.length)]);
  }

  function addRuns() {
    data.runs.forEach((run, number) => {
      if (run === null) return;
      const chosen = () => {
        stop();
        choose(number + 1);
        show();
      };
      const taken = make("button", { title: "step through a run", onclick: chosen }, String(number + 1));
      $(`row${number + 1}`).querySelector("th").replaceChildren(taken);
    });
    if (!$("steps")) $("side").append(make("section", { id: "steps" }, make("h2"), make("ol", { id: "events" })));
  }

  function takeLines() {
    stop();
    const found = follow(pasted($("lines").value));
    row = null;
    moments = found.moments;
    go(moments.length - 1);
    $("pasted").textContent = found.wrong === null ? "" : `Event ${found.wrong} is none that may come next.`;
  }

  function addLines() {
    const lines = make("textarea", { id: "lines", spellcheck: false });
    lines.setAttribute("aria-label", "the events as lines");
    const copy = () => {
      lines.select();
      if (!document.execCommand("copy") && navigator.clipboard) navigator.clipboard.writeText(lines.value);
    };
    const bar = [button("copy", "Copy", copy), button("take", "Take these lines", takeLines), make("span", { id: "pasted" })];
    $("steps").append(make("details", {}, make("summary", {}, "The events as lines, to copy or to paste"), lines,
      make("div", { className: "bar" }, ...bar)));
  }

  const KEYS = {
    ArrowRight: () => go(at + 1), ArrowLeft: () => go(at - 1), Home: () => go(0), End: () => go(moments.length - 1), " ": () => play(),
  };

  document.addEventListener("keydown", (press) => {
    const isTyped = press.target.closest("textarea, input, summary") || (press.key === " " && press.target.closest("button, a"));
    if (isTyped || press.ctrlKey || press.altKey || press.metaKey || !KEYS[press.key]) return;
    press.preventDefault();
    KEYS[press.key]();
  });
  addEventListener("hashchange", () => isPlace() || followAddress());

  addState();
  addControls();
  addRuns();
  addLines();
  followAddress();
  window.page = { choices: () => choices(moments[at].state), events: () => moments.slice(1, at + 1).map((moment) => moment.event),
    state: () => moments[at].state, holds: () => conditionHolds(moments[at].state) };
})();
