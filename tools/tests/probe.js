// Behind the script of a page in a frame: what the mouse and the keyboard do, and how long it takes to draw, as JSON into the page around it.
{
  const press = (key) => document.dispatchEvent(new KeyboardEvent("keydown", { key, bubbles: true }));
  const box = canvas.getBoundingClientRect();
  const mouse = (kind, x, y) => canvas.dispatchEvent(new MouseEvent(kind, { clientX: box.left + x, clientY: box.top + y, bubbles: true }));
  const ink = () => {
    draw();
    return pen.getImageData(0, 0, canvas.width, canvas.height).data.filter((value, i) => i % 4 === 0 && value < 40).length;
  };
  const first = () => told.textContent.split("\n")[0];
  const found = { rows: rows.length, count: byId("count").textContent, start: first(), ink: ink() };
  found.undrawn = data.kinds.filter((kind) => !draws[kind]).concat(data.styles.filter((style) => !stretches[style]));
  press("ArrowDown"); press("ArrowDown");
  found.down = told.textContent;
  press("l");
  found.loss = first();
  press("End");
  found.end = first();
  press("Home");
  found.home = first();
  draw();
  const home = columns.findIndex((column) => column.pid === 17);
  mouse("mousemove", xOf(home) + 60, middleOf(1));
  found.tip = tip.style.display === "block" ? tip.textContent : "";
  mouse("click", xOf(home), middleOf(1));
  found.alone = [alone.value, byId("count").textContent, first()];
  mouse("click", xOf(home), middleOf(0));
  found.all = [alone.value, byId("count").textContent];
  press("ArrowRight"); press("ArrowRight");
  found.second = alone.value;
  press("Escape");
  found.escaped = alone.value;
  // How long a view takes, and how many rows each draws: those in view, however long the log is.
  const took = [];
  let drawn = 0;
  const counted = draws.letter;
  draws.letter = (...all) => { drawn += 1; counted(...all); };
  found.letters = 0;
  for (let i = 0; i < 50; i++) {
    [view.scrollTop, drawn] = [(i / 50) * spacer.offsetHeight, 0];
    const before = performance.now();
    draw();
    pen.getImageData(0, 0, 1, 1);
    took.push(performance.now() - before);
    found.letters = Math.max(found.letters, drawn);
  }
  found.room = Math.ceil(view.clientHeight / sizes.row) + 3;
  found.took = { mean: took.reduce((sum, each) => sum + each) / took.length, worst: Math.max(...took) };
  const result = parent.document.createElement("pre");
  result.textContent = JSON.stringify(found);
  parent.document.body.append(result);
}
