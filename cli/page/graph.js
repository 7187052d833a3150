// A layered drawing of the links: each node below those that flow into it, as far as there is no circle.
function graphOf(view) {
  const ids = [...new Set(view.links.flatMap((link) => [link.from, link.into]))];
  if (!ids.length) return document.createTextNode('no links');
  const level = new Map(ids.map((id) => [id, 0]));
  for (let turn = 0; turn < Math.min(ids.length, 60); turn += 1) {
    let moved = false;
    view.links.forEach(({ from, into }) => {
      if (from !== into && level.get(into) < level.get(from) + 1 && level.get(from) < 60) { level.set(into, level.get(from) + 1); moved = true; }
    });
    if (!moved) break;
  }
  const layers = [];
  ids.forEach((id) => (layers[level.get(id)] ||= []).push(id));
  const spot = new Map();
  const width = 86;
  layers.filter(Boolean).forEach((layer, y) => {
    const weight = (id) => {
      const above = view.links.filter((link) => link.into === id && spot.has(link.from)).map((link) => spot.get(link.from).x);
      return above.length ? above.reduce((sum, x) => sum + x, 0) / above.length : id;
    };
    const order = layer.map((id) => [weight(id), id]).sort((a, b) => a[0] - b[0] || a[1] - b[1]);
    order.forEach(([, id], x) => spot.set(id, { x: 10 + x * width, y: 10 + y * 54 }));
  });
  const places = [...spot.values()];
  const svg = draw('svg', { width: Math.max(...places.map((p) => p.x)) + width + 10, height: Math.max(...places.map((p) => p.y)) + 44 });
  const path = state.chosen?.view === view ? view.explains[state.chosen.id]?.path || [] : [];
  const onPath = new Set(view.linksOf(path).map(({ link }) => link));
  view.links.forEach((link) => {
    const [a, b] = [spot.get(link.from), spot.get(link.into)];
    const d = `M${a.x + 34} ${a.y + 24}C${a.x + 34} ${a.y + 44} ${b.x + 34} ${b.y - 20} ${b.x + 34} ${b.y}`;
    svg.append(draw('path', { class: `${link.kind}${onPath.has(link) ? ' on-path' : ''}`, d }));
  });
  spot.forEach((place, id) => {
    const rect = draw('rect', { x: place.x, y: place.y, width: 68, height: 24, rx: 4, class: state.chosen?.view === view && state.chosen.id === id ? 'chosen' : '' });
    rect.append(draw('title', {}, fullName(id)));
    rect.addEventListener('click', () => choose(view, id));
    svg.append(rect, draw('text', { x: place.x + 34, y: place.y + 16, 'text-anchor': 'middle', 'pointer-events': 'none' }, nameOf(id).slice(0, 10)));
  });
  return svg;
}

