// A squarified treemap: parts in a box, each as large as its share, as near to squares as rows along the shorter side get.

// Calls place(part, box) for each part. Parts have bytes, the largest first.
function divide(parts, box, place) {
  let { x, y, w, h } = box;
  let left = parts.reduce((sum, part) => sum + part.bytes, 0);
  let from = 0;
  while (from < parts.length && left > 0 && w > 0 && h > 0) {
    const side = Math.min(w, h);
    const scale = w * h / left;
    const row = rowOf(parts, from, side, scale);
    const thick = row.sum / side;
    let at = 0;
    for (let index = from; index < row.to; index += 1) {
      const long = parts[index].bytes * scale / thick;
      place(parts[index], w < h ? { x: x + at, y, w: long, h: thick } : { x, y: y + at, w: thick, h: long });
      at += long;
      left -= parts[index].bytes;
    }
    if (w < h) { y += thick; h -= thick; } else { x += thick; w -= thick; }
    from = row.to;
  }
}

// The parts of the next row: as many as make the worst ratio of sides better.
function rowOf(parts, from, side, scale) {
  let to = from;
  let sum = 0;
  let worst = Infinity;
  while (to < parts.length) {
    const next = sum + parts[to].bytes * scale;
    const thick = next / side;
    const ratio = Math.max(parts[from].bytes * scale / thick / thick, thick * thick / (parts[to].bytes * scale));
    if (ratio > worst) break;
    worst = ratio;
    sum = next;
    to += 1;
  }
  return { to, sum };
}
