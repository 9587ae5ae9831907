// Shows one step of the run at a time. Position 0 is the start; what is shown was made before, nothing is decided here.
(() => {
  "use strict";
  const story = JSON.parse(document.getElementById("story").textContent);
  const last = story.steps.length;
  const find = (id) => document.getElementById(id);
  const all = (name) => [...document.querySelectorAll(`[data-${name}]`)];
  let shown = 0;

  const make = (tag, look, text) => {
    const made = document.createElement(tag);
    if (look) made.className = look;
    if (text !== undefined) made.textContent = text;
    return made;
  };
  const marked = (tag, look, name, number) => {
    const made = make(tag, look);
    made.dataset[name] = number;
    return made;
  };
  const under = (parent, ...children) => {
    parent.append(...children);
    return parent;
  };

  // a compare that fails has its mark in words too; they show once it is issued
  const markedLine = (words, failed) => under(make("li"), under(make("span", "", words), make("b", "", failed)));
  const codeLine = (words, failed) => (failed ? markedLine(words, failed) : make("li", "", words));
  const threadCard = (program, thread) => {
    const code = program.map((words, index) => codeLine(words, story.failed[thread][index]));
    const list = under(marked("ol", "program", "program", thread), ...code);
    const buffer = marked("div", "chips", "buffer", thread);
    const registers = marked("p", "registers", "registers", thread);
    const right = under(make("div"), make("h4", "waits", "store buffer"), buffer, registers);
    const left = under(make("div"), make("h4", "", "program"), list);
    return under(make("section", "card thread"), make("h3", "", `thread ${thread}`), under(make("div", "sides"), left, right));
  };
  const queueOf = (line) => under(make("div"), make("h4", "waits", "queue"), marked("div", "chips", "queue", line));
  const memoryOf = (at) => under(make("div", "memory"), make("h4", "", "memory"), marked("div", "word", "word", at));
  const wantOf = (at) => marked("p", "want", "want", at);
  const locationCard = (at, line) => {
    const flow = under(make("div", "flow"), queueOf(line), memoryOf(at));
    return under(make("section", `card location c${at}`), make("h3", "", story.names[at]), flow, wantOf(at));
  };
  // one queue, and a word for each location that shares the line
  const sharedCard = (locations, line) => {
    const word = (at) => under(make("div", `location c${at}`), make("h3", "", story.names[at]), memoryOf(at), wantOf(at));
    const flow = under(make("div", "flow"), queueOf(line), under(make("div", "words"), ...locations.map(word)));
    return under(make("section", "card shared"), make("h3", "", `line ${line}`), flow);
  };
  const lineCard = (locations, line) => (locations.length > 1 ? sharedCard(locations, line) : locationCard(locations[0], line));

  const stateAt = (step) => story.states[Math.min(Math.max(step, 0), story.states.length - 1)];
  const stopped = (step) => step >= story.states.length;

  const touch = (place) => place.closest(".card").classList.add("touched");

  // what is in the way of a step that is not possible: a frame, and the words
  const block = (place, chip) => {
    touch(place);
    chip.classList.add("block");
    return under(chip, " ", make("b", "", "in the way"));
  };
  const fillChips = (place, entries, before, lost, blocker) => {
    const known = new Set(before.map((entry) => entry.life));
    const chips = entries.map((entry) => {
      const fresh = known.has(entry.life) ? "" : " fresh";
      const chip = make("span", `chip ${entry.look}${fresh}${lost ? " lost" : ""}`, entry.text);
      return entry.life === blocker ? block(place, chip) : chip;
    });
    place.replaceChildren(...(chips.length ? chips : [make("span", "none", "empty")]));
    if (entries.length !== before.length) touch(place);
  };
  const fillProgram = (list, issued, before) => {
    [...list.children].forEach((line, index) => {
      line.className = index < issued ? "issued" : index === issued ? "next" : "";
      line.classList.toggle("failed", index < issued && line.childElementCount > 0);
      line.classList.toggle("fresh", index >= before && index < issued);
    });
    if (issued !== before) touch(list);
  };
  const fillWord = (place, word, before) => {
    place.textContent = word.text;
    const changed = word.since !== before.since ? " fresh" : "";
    place.className = `word ${word.look}${word.text.length > 5 ? " long" : ""}${changed}`;
    if (changed) touch(place);
  };
  const fillRegisters = (place, registers, before) => {
    const look = (index) => (registers[index] === before[index] ? "" : "fresh");
    place.replaceChildren(...registers.map((text, index) => make("span", look(index), text)));
  };
  const fillWant = (place, want, word) => {
    const met = want !== null && String(want) === word.text;
    place.textContent = want === null ? "" : `${met ? "✓ " : ""}wanted ${want}`;
    place.classList.toggle("met", met);
  };

  const showState = (step) => {
    const [state, before] = [stateAt(step), stateAt(stopped(step) ? step : step - 1)];
    const lost = step === last && story.end !== null;
    const blocker = stopped(step) && story.blocker ? story.blocker.life : null;
    document.querySelectorAll(".touched").forEach((card) => card.classList.remove("touched"));
    all("program").forEach((list, thread) => fillProgram(list, state.issued[thread], before.issued[thread]));
    all("buffer").forEach((place, thread) => fillChips(place, state.buffers[thread], before.buffers[thread], lost, blocker));
    all("registers").forEach((place, thread) => fillRegisters(place, state.registers[thread], before.registers[thread]));
    all("queue").forEach((place, line) => fillChips(place, state.queues[line], before.queues[line], lost, blocker));
    // by their numbers: those that share a line stand together
    all("word").forEach((place) => fillWord(place, state.words[place.dataset.word], before.words[place.dataset.word]));
    all("want").forEach((place) => fillWant(place, story.wants[place.dataset.want], state.words[place.dataset.want]));
    find("end").hidden = !lost;
  };
  // what changed must be seen, also where the cards are longer than the screen; at the end what the power cut leaves
  const showChange = () => {
    const change = [...document.querySelectorAll(".touched")].pop();
    const place = find("end").hidden ? change : find("end");
    if (place) place.scrollIntoView({ block: "nearest" });
  };
  const showStep = (step) => {
    const code = step ? story.steps[step - 1].code : "start";
    find("where").replaceChildren(`Step ${step} of ${last}`, make("span", "code", code));
    find("say").textContent = step ? story.steps[step - 1].say : story.start;
    find("way").textContent = stopped(step) && story.blocker ? story.blocker.told : "";
    document.body.classList.toggle("stop", stopped(step));
  };
  const showKeys = (step) => {
    find("slider").value = step;
    find("slider").setAttribute("aria-valuetext", `Step ${step} of ${last}`);
    all("go").forEach((key) => {
      const back = key.dataset.go === "start" || key.dataset.go === "back";
      key.setAttribute("aria-disabled", String(step === (back ? 0 : last)));
    });
  };
  const show = (wanted) => {
    shown = Math.min(Math.max(wanted, 0), last);
    showState(shown);
    showStep(shown);
    showKeys(shown);
    showChange();
    document.body.dataset.step = String(shown);
    if (location.hash !== `#${shown}`) history.replaceState(null, "", `#${shown}`);
  };

  const ways = { start: () => 0, back: () => shown - 1, next: () => shown + 1, end: () => last };
  const keys = { ArrowRight: "next", ArrowDown: "next", ArrowLeft: "back", ArrowUp: "back", Home: "start", End: "end" };
  const fromHash = () => (/^#\d{1,3}$/.test(location.hash) ? Number(location.hash.slice(1)) : 0);

  find("threads").append(...story.threads.map(threadCard));
  find("locations").append(...story.lines.map(lineCard));
  find("slider").max = last;
  if (story.end) {
    find("end-left").textContent = story.end.left;
    find("end-lost").textContent = story.end.lost;
  }
  document.addEventListener("keydown", (event) => {
    const way = keys[event.key];
    // in the picture the arrow keys scroll
    if (!way || event.target.closest(".picture") || event.ctrlKey || event.altKey || event.metaKey || event.shiftKey) return;
    event.preventDefault();
    show(ways[way]());
  });
  all("go").forEach((key) => key.addEventListener("click", () => show(ways[key.dataset.go]())));
  find("slider").addEventListener("input", (event) => show(Number(event.target.value)));
  window.addEventListener("hashchange", () => show(fromHash()));
  find("stage").hidden = false;
  show(fromHash());
})();
