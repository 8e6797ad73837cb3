// The map of what is selected. Every name goes into the page as text, never as markup.

const LABEL = 17; // pixels of a directory's line
const LEAST = 3; // pixels of a side that is drawn
const NESTED = 24; // pixels of a side that is divided further
const DEPTH = 4;
const SEEN = 36; // square pixels of the largest part of a directory that is divided
const LOOKS = { s: "shown", p: "shown", d: "hidden", o: "hidden", u: "hidden", r: "repeated" };

// The parts of a directory, the largest first: directories, and the items of files.
function partsOf(tree, selection, node) {
  const parts = itemsAt(tree, selection, node);
  for (const child of childrenOf(tree, node)) {
    if (selection.sums[child] === 0) continue;
    if (isFolder(tree, child)) parts.push({ node: child, bytes: selection.sums[child], item: null });
    else parts.push(...itemsAt(tree, selection, child));
  }
  return parts.sort((one, other) => other.bytes - one.bytes || one.node - other.node);
}

// The selected items of one node.
function itemsAt(tree, selection, node) {
  const parts = [];
  for (let item = tree.firsts[node]; item < tree.firsts[node + 1]; item += 1) {
    if (selection.isSelected[item]) parts.push({ node, bytes: tree.bytes[item], item });
  }
  return parts;
}

function labelOf(tree, part) {
  if (part.item !== null && isRest(tree, part.node)) return `${tree.files[part.item].toLocaleString("en")} smaller`;
  return `${tree.names[part.node] || "/"}${part.item === null ? "/" : ""}`;
}

function describe(tree, selection, part) {
  const all = selection.sums[0];
  const share = all ? `${(100 * part.bytes / all).toFixed(1)} %` : "";
  const path = pathOf(tree, part.node);
  const rest = isRest(tree, part.node) ? `${tree.files[part.item].toLocaleString("en")} smaller files` : "";
  const why = part.item === null ? "" : `${layerText(tree, tree.layers[part.item])}, ${whyOf(tree, part.item)}`;
  return [`${path}: ${sizeText(part.bytes)}`, share, rest, why].filter(Boolean).join(", ");
}

// The classes of what most of a part's bytes are: how they count, and which layer's they are.
function looksOf(tree, selection, part) {
  if (part.item !== null) return [LOOKS[tree.kinds[part.item]], `l${tree.layers[part.item]}`];
  const sums = new Map();
  for (let item = tree.firsts[part.node]; item < tree.firsts[tree.ends[part.node]]; item += 1) {
    const looks = `${LOOKS[tree.kinds[item]]} l${tree.layers[item]}`;
    if (selection.isSelected[item]) sums.set(looks, (sums.get(looks) || 0) + tree.bytes[item]);
  }
  const [most] = [...sums].sort((one, other) => other[1] - one[1])[0];
  return most.split(" ");
}

function cellOf(tree, selection, part, box, isOuter) {
  const element = document.createElement(part.item === null ? "button" : "div");
  element.className = "cell";
  if (part.item === null) element.classList.add("folder");
  if (isOuter) element.classList.add("outer");
  else element.classList.add(...looksOf(tree, selection, part));
  Object.assign(element.style, { left: `${box.x}px`, top: `${box.y}px`, width: `${box.w}px`, height: `${box.h}px` });
  if (box.w > 34 && box.h > 14) {
    const label = document.createElement("span");
    label.textContent = `${labelOf(tree, part)} ${sizeText(part.bytes)}`;
    element.append(label);
  }
  return element;
}

class TreeMap {
  // `open` is called with the node of a directory that was chosen, `tell` with the text of what is pointed at.
  constructor(element, open, tell) {
    this.element = element;
    this.parts = new Map();
    element.addEventListener("click", (event) => {
      const part = this.partAt(event);
      if (part) open(part.item === null ? part.node : this.tree.parents[part.node]);
    });
    for (const kind of ["pointerover", "focusin"]) {
      element.addEventListener(kind, (event) => {
        const part = this.partAt(event);
        if (part) tell(describe(this.tree, this.selection, part));
      });
    }
    element.addEventListener("pointerleave", () => tell(""));
    element.addEventListener("keydown", (event) => this.move(event));
  }

  draw(tree, selection, node) {
    const { clientWidth, clientHeight } = this.element;
    Object.assign(this, { tree, selection, node, clientWidth, clientHeight });
    this.parts.clear();
    const into = document.createDocumentFragment();
    this.fill(node, { x: 0, y: 0, w: clientWidth, h: clientHeight }, 0, into);
    if (!this.parts.size) into.append("Nothing to draw");
    this.element.replaceChildren(into);
  }

  // Draws it again if it has another size.
  fit() {
    const { clientWidth, clientHeight } = this.element;
    if (clientWidth !== this.clientWidth || clientHeight !== this.clientHeight) this.draw(this.tree, this.selection, this.node);
  }

  // Whether a directory's cell has the cells of its parts in it.
  isOuter(part, box, depth) {
    if (part.item !== null || depth >= DEPTH || box.w <= 2 * NESTED || box.h <= NESTED + LABEL) return false;
    const [largest] = partsOf(this.tree, this.selection, part.node);
    return box.w * box.h * largest.bytes / part.bytes > SEEN;
  }

  // Puts the cells of a directory into a box, and in large ones the cells of their own.
  fill(node, box, depth, into) {
    divide(partsOf(this.tree, this.selection, node), box, (part, own) => {
      if (own.w < LEAST || own.h < LEAST) return;
      const isOuter = this.isOuter(part, own, depth);
      const element = cellOf(this.tree, this.selection, part, own, isOuter);
      this.parts.set(element, part);
      if (part.item === null) {
        element.type = "button";
        element.tabIndex = depth ? -1 : 0;
        element.setAttribute("aria-label", describe(this.tree, this.selection, part));
      }
      into.append(element);
      if (isOuter) {
        this.fill(part.node, { x: own.x + 2, y: own.y + LABEL, w: own.w - 4, h: own.h - LABEL - 2 }, depth + 1, into);
      }
    });
  }

  partAt(event) {
    return this.parts.get(event.target.closest(".cell"));
  }

  // The arrows go from one directory to the next.
  move(event) {
    const buttons = [...this.element.querySelectorAll("button[tabindex='0']")];
    const at = buttons.indexOf(document.activeElement);
    const step = { ArrowRight: 1, ArrowDown: 1, ArrowLeft: -1, ArrowUp: -1 }[event.key];
    if (!step || at < 0) return;
    event.preventDefault();
    buttons[(at + step + buttons.length) % buttons.length].focus();
  }

  // Puts the focus on the cell of a directory, or else on the first one.
  focus(node) {
    const buttons = [...this.element.querySelectorAll("button[tabindex='0']")];
    const next = buttons.find((element) => this.parts.get(element).node === node) || buttons[0];
    if (next) next.focus({ preventScroll: true });
    return Boolean(next);
  }
}
