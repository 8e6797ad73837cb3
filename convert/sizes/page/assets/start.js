// Puts it all together: the address says what is looked at, and each change of it draws the page anew.

class Explorer {
  constructor(tree) {
    this.tree = tree;
    this.section = document.getElementById("explorer");
    this.search = document.getElementById("search");
    this.state = stateOf(tree, location.hash);
    this.lists = new Lists((change) => this.linkTo(change));
    this.map = new TreeMap(this.part(".map"), (node) => this.go({ node }), (text) => this.tell(text));
    this.section.hidden = false;
    addEventListener("hashchange", () => this.follow());
    addEventListener("keydown", (event) => this.leave(event));
    this.search.addEventListener("input", () => this.go({ find: this.search.value }, true));
    for (const row of document.querySelectorAll("tr[data-layer]")) {
      row.addEventListener("click", (event) => this.choose(event, row));
    }
  }

  // Draws for the first time, at the map if the address asks for something.
  start() {
    this.draw();
    if (location.hash.length > 1) this.part("h2").scrollIntoView();
    new ResizeObserver(() => this.map.fit()).observe(this.part(".map"));
  }

  part(query) {
    return this.section.querySelector(query);
  }

  linkTo(change) {
    return hashOf(this.tree, { ...this.state, ...change });
  }

  // Goes to another state; while somebody types, without a new place in the history.
  go(change, isTyped = false) {
    if (!isTyped) {
      location.hash = this.linkTo(change);
      return;
    }
    history.replaceState(null, "", this.linkTo(change));
    this.follow();
  }

  follow() {
    const before = this.state;
    this.state = stateOf(this.tree, location.hash);
    this.draw();
    if (this.part("h2").getBoundingClientRect().top > innerHeight) this.part("h2").scrollIntoView();
    if (document.activeElement === document.body) this.focus(before.node);
  }

  // Where somebody goes on who followed a link that isn't there any more: in another directory on its map, if it has any.
  focus(before) {
    const isElsewhere = before !== this.state.node;
    if (isElsewhere && this.map.focus(before)) return;
    this.part(isElsewhere ? ".way a" : ".views [aria-current]").focus({ preventScroll: true });
  }

  // A click anywhere in a layer's row is one on its number.
  choose(event, row) {
    if (!event.target.closest("a") && !getSelection().toString()) row.querySelector("a").click();
  }

  // Escape leaves a directory, and then the layer.
  leave(event) {
    if (event.key !== "Escape" || event.target === this.search) return;
    if (this.state.node) this.go({ node: this.tree.parents[this.state.node] });
    else if (this.state.layer !== null) this.go({ layer: null, view: null });
  }

  draw() {
    const { tree, state } = this;
    this.selection = selectionOf(tree, state);
    this.drawLayers();
    this.drawViews();
    this.drawWay();
    if (this.search.value !== state.find) this.search.value = state.find;
    const isOfPaths = state.find && state.layer === null && ["all", "shown"].includes(this.selection.view);
    const paths = isOfPaths ? [...withoutBytes(tree, state, this.selection.found)] : [];
    this.drawFound(paths.length);
    this.map.draw(tree, this.selection, state.node);
    this.lists.draw(tree, this.selection, paths);
    this.tell("");
  }

  // The links of the layers, each to that layer or, of the chosen one, back to all.
  drawLayers() {
    for (const row of document.querySelectorAll("tr[data-layer]")) {
      const layer = Number(row.dataset.layer);
      const isChosen = layer === this.state.layer;
      const link = row.querySelector("a");
      row.classList.toggle("chosen", isChosen);
      link.setAttribute("aria-current", isChosen);
      link.href = this.linkTo({ layer: isChosen ? null : layer, view: null });
    }
    const { layer } = this.state;
    this.part("h2").textContent = layer === null ? "All layers" : `Layer ${layer}: ${this.tree.made[layer][1]}`;
  }

  // The views with what is in each.
  drawViews() {
    const { layer } = this.state;
    const names = Object.keys(VIEWS).filter((name) => layer !== null || !OF_A_LAYER.includes(name));
    const links = names.map((name) => {
      const link = document.createElement("a");
      const { bytes, files } = this.selection.totals[name];
      link.textContent = `${VIEWS[name]} ${sizeText(bytes)}`;
      link.title = filesText(files);
      link.href = this.linkTo({ view: name });
      link.dataset.view = name;
      link.dataset.bytes = bytes;
      if (name === this.selection.view) link.setAttribute("aria-current", "true");
      return link;
    });
    if (layer !== null) {
      const all = document.createElement("a");
      all.textContent = "× all layers";
      all.href = this.linkTo({ layer: null, view: null });
      links.push(all);
    }
    replaceKeepingFocus(this.part(".views"), links);
  }

  drawWay() {
    const { tree, state } = this;
    const nodes = [];
    for (let at = state.node; at > 0; at = tree.parents[at]) nodes.push(at);
    const links = [...nodes, 0].reverse().map((node) => {
      const link = this.lists.link(node ? tree.names[node] : "/", { node });
      if (node === state.node) link.setAttribute("aria-current", "location");
      return link;
    });
    this.part(".way").replaceChildren(...links.flatMap((link, index) => (index > 1 ? ["/", link] : [link])));
  }

  drawFound(paths) {
    const { bytes, files } = this.selection.totals[this.selection.view];
    const left = this.tree.pathCount - this.tree.names.length;
    const parts = [`${filesText(files)}, ${sizeText(bytes)}`];
    if (paths) parts.push(`${paths.toLocaleString("en")} paths without bytes of their own`);
    if (this.state.find && left > 0) parts.push(`${left.toLocaleString("en")} of the smallest aren't searched`);
    this.part(".found").textContent = parts.join("; ");
  }

  tell(text) {
    this.part(".description").textContent = text;
  }
}

// Puts links in the place of others; one that had the focus has it again.
function replaceKeepingFocus(element, links) {
  const at = [...element.children].indexOf(document.activeElement);
  element.replaceChildren(...links);
  if (at >= 0 && links[at]) links[at].focus();
}

readData().then((tree) => {
  new Explorer(tree).start();
  performance.mark("drawn");
}, (problem) => {
  const section = document.getElementById("explorer");
  section.hidden = false;
  section.textContent = `The map and the search can't be drawn by this browser (${problem}). All tables are here without them.`;
});
