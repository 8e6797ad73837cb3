// The data of the page: nodes (directories and files) in path order, and items (files of a layer) in the order of their
// nodes. What is below a node comes right after it, so it is a range of nodes, and of items.

async function readData() {
  const letters = atob(document.getElementById("data").textContent);
  const packed = new Uint8Array(letters.length);
  for (let at = 0; at < letters.length; at += 1) packed[at] = letters.charCodeAt(at);
  const stream = new Blob([packed]).stream().pipeThrough(new DecompressionStream("deflate"));
  return treeOf(JSON.parse(await new Response(stream).text()));
}

function treeOf(data) {
  const tree = { ...data, ...linked(data.depths), ...placed(data.steps, data.names.length) };
  tree.paths = [];
  tree.pathCount = data.paths;
  return tree;
}

// For each node its directory, and the first node after all that is below it.
function linked(depths) {
  const parents = new Int32Array(depths.length);
  const ends = new Int32Array(depths.length).fill(depths.length);
  const open = [];
  depths.forEach((depth, node) => {
    while (open.length > depth) ends[open.pop()] = node;
    parents[node] = depth ? open[depth - 1] : 0;
    open.push(node);
  });
  return { parents, ends };
}

// For each item its node; for each node its first item, and at the end the number of items.
function placed(steps, count) {
  const nodes = new Int32Array(steps.length);
  const firsts = new Int32Array(count + 1);
  let node = 0;
  steps.forEach((step, item) => {
    node += step;
    nodes[item] = node;
    firsts[node + 1] = item + 1;
  });
  for (let next = 1; next <= count; next += 1) firsts[next] = Math.max(firsts[next], firsts[next - 1]);
  return { nodes, firsts };
}

function isFolder(tree, node) {
  return tree.ends[node] > node + 1 || node === 0;
}

// A node without a name is the sum of the smaller files of its directory.
function isRest(tree, node) {
  return node > 0 && tree.names[node] === "";
}

// The path of a node; of smaller files that are summed up, that of their directory.
function pathOf(tree, node) {
  if (node === 0) return "/";
  if (tree.paths[node] === undefined) {
    const above = pathOf(tree, tree.parents[node]);
    tree.paths[node] = isRest(tree, node) ? above : `${above === "/" ? "" : above}/${tree.names[node]}`;
  }
  return tree.paths[node];
}

// The node of a path, or of what is nearest above it.
function nodeOf(tree, path) {
  let node = 0;
  for (const name of path.split("/").filter(Boolean)) {
    const found = childNamed(tree, node, name);
    if (found === null) return node;
    node = found;
  }
  return node;
}

function childNamed(tree, node, name) {
  for (let child = node + 1; child < tree.ends[node]; child = tree.ends[child]) {
    if (tree.names[child] === name) return child;
  }
  return null;
}

function childrenOf(tree, node) {
  const children = [];
  for (let child = node + 1; child < tree.ends[node]; child = tree.ends[child]) children.push(child);
  return children;
}
