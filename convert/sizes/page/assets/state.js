// What is looked at: files of one layer or of all, below a path, by a view, whose paths have a text. It is the address
// after #, such as #layer=3&path=/usr, so each state is a link.

const VIEWS = {
  wasted: "Wasted", shown: "Shown", all: "All", added: "Added", changed: "Changed", removed: "Removed below",
};
const OF_A_LAYER = ["added", "changed", "removed"];

function stateOf(tree, hash) {
  const words = new URLSearchParams(hash.replace(/^#/, "").replaceAll("+", "%2B"));
  const layer = /^\d{1,3}$/.test(words.get("layer") || "") ? Number(words.get("layer")) : null;
  const state = {
    layer: layer !== null && layer < tree.made.length ? layer : null,
    node: nodeOf(tree, words.get("path") || "/"),
    view: Object.hasOwn(VIEWS, words.get("view") || "") ? words.get("view") : null,
    find: words.get("find") || "",
  };
  if (state.layer === null && OF_A_LAYER.includes(state.view)) state.view = null;
  return state;
}

// The view without one in the address: what is wasted, if anything is; all paths for a search or a layer.
function viewOf(tree, state) {
  if (state.view) return state.view;
  if (state.find || state.layer !== null) return "all";
  return tree.kinds.search(/[dour]/) >= 0 ? "wasted" : "shown";
}

function hashOf(tree, state) {
  const words = [];
  if (state.layer !== null) words.push(`layer=${state.layer}`);
  if (state.node) words.push(`path=${encoded(pathOf(tree, state.node))}`);
  if (state.view) words.push(`view=${state.view}`);
  if (state.find) words.push(`find=${encoded(state.find)}`);
  return `#${words.join("&")}`;
}

function encoded(text) {
  return encodeURIComponent(text).replaceAll("%2F", "/");
}
