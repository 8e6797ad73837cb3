// Sizes, layers and reasons in words, as the tables without the script have them.

function sizeText(size) { // as `ls -h`
  if (size < 1024) return String(size);
  let power = 0;
  let unit = 1;
  while (size >= unit * 1024 && power < 6) { unit *= 1024; power += 1; }
  const tenths = Math.ceil(size / unit * 10);
  if (tenths < 100) return `${Math.floor(tenths / 10)}.${tenths % 10}${"KMGTPE"[power - 1]}`;
  const whole = Math.ceil(size / unit);
  return whole === 1024 && power < 6 ? `1.0${"KMGTPE"[power]}` : `${whole}${"KMGTPE"[power - 1]}`;
}

function filesText(count) {
  return `${count.toLocaleString("en")} ${count === 1 ? "file" : "files"}`;
}

function layerText(tree, layer) {
  const [step] = tree.made[layer];
  return step || `layer ${layer}`;
}

// What was done to an item's bytes, and the layer that did it.
function causeOf(tree, item) {
  const { kinds, by, layers } = tree;
  switch (kinds[item]) {
    case "d": return { text: `removed in ${layerText(tree, by[item])}`, layer: by[item] };
    case "o": return { text: `replaced in ${layerText(tree, by[item])}`, layer: by[item] };
    case "r": return { text: `duplicate in ${layerText(tree, layers[item])}`, layer: layers[item] };
    case "u": return { text: "never used", layer: layers[item] };
    default: return { text: `shown from ${layerText(tree, layers[item])}`, layer: layers[item] };
  }
}

// The reason for one file.
function whyOf(tree, item) {
  if (tree.kinds[item] === "r") return `as in layer ${tree.by[item]}`;
  if (tree.kinds[item] === "s") return "shown";
  if (tree.kinds[item] === "p") return "shown, as a layer above has it again";
  return causeOf(tree, item).text;
}
