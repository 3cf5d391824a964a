// For tools/show_test: steps through a page as a reader does, and leaves what it saw in the page.
{
  const told = { steps: 0, wrong: [], facts: {}, effects: {}, apart: 0 };
  const press = (key, at = document.body) => at.dispatchEvent(new KeyboardEvent("keydown", { key, bubbles: true, cancelable: true }));
  const position = () => +document.getElementById("slider").value;
  const want = (holds, what) => { if (!holds) told.wrong.push(what); };
  const last = +document.getElementById("slider").max;
  const texts = (selector) => [...document.querySelectorAll(selector)].map((it) => it.textContent);
  const hover = () => {
    const rows = document.querySelectorAll(".graph li");
    for (const row of [rows[0], rows[rows.length - 1]]) {
      if (!row) continue;
      row.dispatchEvent(new MouseEvent("mouseover", { bubbles: true }));
      const card = document.getElementById("card");
      want(!card.hidden && /author|merge/.test(card.textContent), `no card at line ${position()}`);
      want(row.getAttribute("aria-label"), `a command without a label at line ${position()}`);
    }
  };
  const step = () => {
    told.steps += 1;
    told.apart += document.querySelectorAll("li.apart").length;
    const chosen = document.querySelectorAll('.lines li[aria-selected="true"]');
    want(chosen.length === document.querySelectorAll(".run").length, `${chosen.length} chosen lines at ${position()}`);
    hover();
  };
  press("Home");
  want(position() === 1, "Home doesn't lead to the first line");
  step();
  while (position() < last && told.steps <= last) {
    press("ArrowRight");
    step();
  }
  press("ArrowLeft");
  want(position() === Math.max(1, last - 1), "an arrow to the left doesn't step back");
  document.querySelector(".lines li").click();
  want(position() === 1, "a click doesn't choose a line");
  const slider = document.getElementById("slider");
  slider.value = last;
  slider.dispatchEvent(new Event("input"));
  want(document.getElementById("position").textContent === `${last} of ${last}`, "the slider doesn't choose a line");
  press("m");
  press("End");
  const unlabelled = [...document.querySelectorAll("button, input, [role=listbox], [role=group]")].filter((it) => !(it.getAttribute("aria-label") || it.textContent.trim() || it.closest("label")));
  want(!unlabelled.length, `without a label: ${unlabelled.map((it) => it.outerHTML.slice(0, 60))}`);
  for (const box of document.querySelectorAll(".run:first-child [data-facts]")) told.facts[box.dataset.facts] = [...box.querySelectorAll("li:not(.gone) [data-fact]")].map((it) => it.textContent);
  for (const name of texts(".run:first-child .choose button")) {
    [...document.querySelectorAll(".run:first-child .choose button")].find((it) => it.textContent === name).click();
    want(document.querySelector('.run:first-child .choose [aria-pressed="true"]').textContent === name, `${name} can't be chosen`);
    const shown = [...document.querySelectorAll(".run:first-child [data-now] li")].filter((it) => it.querySelector("[data-effect]"));
    told.effects[name] = shown.map((it) => it.querySelector("[data-effect]").textContent + (it.querySelector(".chip") ? " recalled" : ""));
  }
  const left = document.createElement("pre");
  left.id = "probed";
  left.textContent = JSON.stringify({ ...told, troubles: window.troubles });
  document.body.append(left);
}
