// Which items are selected, and what they sum up to.

// Whether an item belongs to a view. Kinds: s shown, p shown by a layer above that has it again, d removed above,
// o replaced above, r duplicate of a lower layer, u never used.
const BELONGS = {
  all: () => true,
  shown: (tree, item) => tree.kinds[item] === "s" || tree.kinds[item] === "p",
  wasted: (tree, item) => tree.kinds[item] !== "s" && tree.kinds[item] !== "p",
  added: (tree, item) => tree.changes[item] === "+",
  changed: (tree, item) => tree.changes[item] === "~",
  removed: (tree, item) => tree.kinds[item] === "d" || tree.kinds[item] === "o",
};

// Whether an item is of a layer; what a layer removes is of those below it.
function isOfLayer(tree, item, layer, view) {
  if (layer === null) return !OF_A_LAYER.includes(view);
  return view === "removed" ? tree.by[item] === layer : tree.layers[item] === layer;
}

// The selected items of a state by its view, and the bytes and files of all views.
function selectionOf(tree, state) {
  const view = viewOf(tree, state);
  const found = matcherOf(tree, state.find);
  const totals = Object.fromEntries(Object.keys(VIEWS).map((name) => [name, { bytes: 0, files: 0 }]));
  const items = [];
  const isSelected = new Uint8Array(tree.nodes.length);
  for (let item = tree.firsts[state.node]; item < tree.firsts[tree.ends[state.node]]; item += 1) {
    if (!found(tree.nodes[item])) continue;
    for (const name of Object.keys(VIEWS)) {
      if (!isOfLayer(tree, item, state.layer, name) || !BELONGS[name](tree, item)) continue;
      totals[name].bytes += tree.bytes[item];
      totals[name].files += tree.files[item];
      if (name === view) {
        items.push(item);
        isSelected[item] = 1;
      }
    }
  }
  return { view, items, isSelected, totals, found, sums: sumsOf(tree, items) };
}

// Whether the path of a node has a text, in any case of its letters.
function matcherOf(tree, text) {
  if (!text) return () => true;
  const wanted = text.toLowerCase();
  return (node) => pathOf(tree, node).toLowerCase().includes(wanted);
}

// The bytes of each node with all below it.
function sumsOf(tree, items) {
  const sums = new Float64Array(tree.names.length);
  for (const item of items) sums[tree.nodes[item]] += tree.bytes[item];
  for (let node = sums.length - 1; node > 0; node -= 1) sums[tree.parents[node]] += sums[node];
  return sums;
}

// The paths that match and have no bytes: directories, links, empty files.
function* withoutBytes(tree, state, found) {
  for (let node = state.node; node < tree.ends[state.node]; node += 1) {
    if (tree.firsts[node] === tree.firsts[node + 1] && found(node)) yield node;
  }
}
