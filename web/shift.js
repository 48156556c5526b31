// A line moved aside, to the right of its direction, by pixels of the map's zoom.

// The direction to the right of the way from one point to another, of length 1.
function rightOf(from, to) {
  const [x, y] = [to.x - from.x, to.y - from.y];
  const long = Math.hypot(x, y);
  return long ? { x: -y / long, y: x / long } : null;
}

// What a point is moved by: between two directions the middle one, lengthened so that both sides stay equally far, within limits.
function asideOf(before, after) {
  if (!before || !after) return before ?? after ?? { x: 0, y: 0 };
  const [x, y] = [before.x + after.x, before.y + after.y];
  const half = (x * x + y * y) / 2;
  const most = Math.max(half, 0.5);
  return { x: x / most, y: y / most };
}

export function shifted(map, points, pixels) {
  const zoom = map.getZoom();
  const flat = points.map((point) => map.project(point, zoom));
  const sides = flat.slice(1).map((to, number) => rightOf(flat[number], to));
  return flat.map((point, number) => {
    const aside = asideOf(sides[number - 1] ?? null, sides[number] ?? null);
    return map.unproject(L.point(point.x + aside.x * pixels, point.y + aside.y * pixels), zoom);
  });
}
