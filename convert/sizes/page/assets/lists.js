// The lists of what is selected: by directory, by command, and by file; the first rows, and more on demand.

const FIRST = 20;
const MORE = 200;

class List {
  constructor(id) {
    this.section = document.getElementById(id);
    this.table = this.section.querySelector("table") || this.section.appendChild(document.createElement("table"));
    this.table.className = "list";
    this.title = this.section.querySelector("h2");
    this.section.querySelectorAll("details, p").forEach((element) => element.remove());
    this.button = document.createElement("button");
    this.button.type = "button";
    this.button.className = "more";
    this.button.addEventListener("click", () => this.add(MORE));
    this.section.append(this.button);
  }

  // Shows rows: each is made when it is seen, by row(entry), which gives a field for each column.
  show(title, columns, entries, row) {
    Object.assign(this, { columns, entries, row, count: 0 });
    this.title.textContent = title;
    const head = rowOfTable("th", columns.map((column) => [column.head, column.kind]));
    this.table.replaceChildren(document.createElement("thead"), document.createElement("tbody"));
    this.table.tHead.append(head);
    this.add(FIRST);
  }

  add(most) {
    const before = document.activeElement === this.button;
    const next = this.entries.slice(this.count, this.count + most);
    const rows = next.map((entry) => rowOfTable("td", this.row(entry).map((field, at) => [field, this.columns[at].kind])));
    this.table.tBodies[0].append(...rows);
    this.count += next.length;
    const left = this.entries.length - this.count;
    this.button.hidden = left === 0;
    this.button.textContent = left <= MORE ? `${left} more` : `${MORE} more of ${left.toLocaleString("en")}`;
    if (before && rows.length) (rows[0].querySelector("a") || this.button).focus();
  }
}

function rowOfTable(name, fields) {
  const row = document.createElement("tr");
  for (const [field, kind] of fields) {
    const cell = document.createElement(name);
    cell.className = kind;
    cell.append(field);
    row.append(cell);
  }
  return row;
}

const COLUMNS = {
  bytes: { head: "Bytes", kind: "number" },
  files: { head: "Files", kind: "number files" },
  layer: { head: "Layer", kind: "number of-layer" },
  why: { head: "Why", kind: "why" },
  directory: { head: "Directory", kind: "path" },
  command: { head: "Command", kind: "text" },
  path: { head: "Path", kind: "path" },
};

// What items sum up to in groups, the largest first; groupOf(item) gives a key.
function grouped(tree, items, groupOf) {
  const groups = new Map();
  for (const item of items) {
    const key = groupOf(item);
    const group = groups.get(key) || { key, item, bytes: 0, files: 0 };
    group.bytes += tree.bytes[item];
    group.files += tree.files[item];
    groups.set(key, group);
  }
  return [...groups.values()].sort((one, other) => other.bytes - one.bytes || one.key - other.key);
}

class Lists {
  // linkTo(change) gives the address of the state with some members changed.
  constructor(linkTo) {
    this.linkTo = linkTo;
    this.directories = new List("by-directory");
    this.commands = new List("by-command");
    this.files = new List("files");
  }

  draw(tree, selection, paths) {
    const name = VIEWS[selection.view];
    this.drawDirectories(tree, selection, `${name}, by directory`);
    this.drawCommands(tree, selection, `${name}, by command`);
    this.drawFiles(tree, selection, `${name}, by file`, paths);
  }

  drawDirectories(tree, selection, title) {
    const groups = grouped(tree, selection.items, (item) => tree.parents[tree.nodes[item]]);
    const { bytes, files, directory } = COLUMNS;
    this.directories.show(title, [bytes, files, directory], groups, (group) => [
      sizeText(group.bytes), group.files.toLocaleString("en"), this.link(directoryText(tree, group.key), { node: group.key }),
    ]);
  }

  drawCommands(tree, selection, title) {
    const keys = new Map();
    const groups = grouped(tree, selection.items, (item) => {
      const { text, layer } = causeOf(tree, item);
      const key = `${layer} ${text}`;
      if (!keys.has(key)) keys.set(key, keys.size);
      return keys.get(key);
    });
    const { bytes, files, why, command } = COLUMNS;
    this.commands.show(title, [bytes, files, why, command], groups, (group) => {
      const { text, layer } = causeOf(tree, group.item);
      return [sizeText(group.bytes), group.files.toLocaleString("en"), text, this.link(tree.made[layer][1], { layer })];
    });
  }

  // The files, the largest first, and then paths without bytes.
  drawFiles(tree, selection, title, paths) {
    const items = [...selection.items].sort((one, other) => tree.bytes[other] - tree.bytes[one] || one - other);
    const entries = [...items.map((item) => ({ item, node: tree.nodes[item] })), ...paths.map((node) => ({ item: null, node }))];
    const { bytes, layer, why, path } = COLUMNS;
    this.files.show(title, [bytes, layer, why, path], entries, ({ item, node }) => {
      if (item === null) return ["-", "", "no bytes of its own", this.pathLink(tree, node)];
      return [sizeText(tree.bytes[item]), String(tree.layers[item]), whyOf(tree, item), this.fileLink(tree, item)];
    });
  }

  pathLink(tree, node) {
    return this.link(isFolder(tree, node) ? directoryText(tree, node) : pathOf(tree, node), { node });
  }

  fileLink(tree, item) {
    const node = tree.nodes[item];
    const rest = isRest(tree, node) ? `: ${tree.files[item].toLocaleString("en")} smaller files` : "";
    return this.link(pathOf(tree, node) + rest, { node: isRest(tree, node) ? tree.parents[node] : node });
  }

  link(text, change) {
    const element = document.createElement("a");
    element.textContent = text;
    element.href = this.linkTo(change);
    return element;
  }
}

function directoryText(tree, node) {
  return node === 0 ? "/" : `${pathOf(tree, node)}/`;
}
