'use strict';
// Draws the borders and finds the library's answers that the page holds. It judges nothing itself: what is said of a place is what the library said
// there, or at the nearest point of the raster, and then the page says so.
(() => {
  const data = JSON.parse(document.getElementById('data').textContent);
  const byId = (id) => document.getElementById(id);
  const canvas = byId('map');
  const pen = canvas.getContext('2d');
  const [south, west, north, east] = data.frame;

  // ---- the data as it was packed
  const bytesOf = (text) => {
    const letters = atob(text);
    const bytes = new Uint8Array(letters.length);
    for (let i = 0; i < letters.length; i++) bytes[i] = letters.charCodeAt(i);
    return bytes;
  };
  const numbersOf = (text) => {
    const bytes = bytesOf(text);
    let at = 0;
    const next = () => {
      let value = 0;
      for (let unit = 1; ; unit *= 128) {
        value += (bytes[at] & 127) * unit;
        if (bytes[at++] < 128) return value;
      }
    };
    const signed = (value = next()) => (value % 2 ? -(value + 1) / 2 : value / 2);
    return { next, signed, more: () => at < bytes.length };
  };

  // A ring: its points on the grid, latitude and longitude in turn, the last level of each, its box, and what is drawn of it at each level.
  const ringOf = (numbers, levels, start, count) => {
    const points = new Int32Array(2 * count);
    let [s, w, n, e] = [Infinity, Infinity, -Infinity, -Infinity];
    for (let i = 0; i < 2 * count; i += 2) {
      const [lat, lon] = [here.lat += numbers.signed(), here.lon += numbers.signed()];
      [points[i], points[i + 1]] = [lat, lon];
      [s, w, n, e] = [Math.min(s, lat), Math.min(w, lon), Math.max(n, lat), Math.max(e, lon)];
    }
    return { points, box: [s, w, n, e], levels: levels.subarray(start, start + count), drawn: [points] };
  };
  const here = { lat: 0, lon: 0 };
  const readYards = () => {
    const numbers = numbersOf(data.points);
    const halves = bytesOf(data.levels);
    const levels = new Uint8Array(2 * halves.length);
    halves.forEach((byte, i) => { levels[2 * i] = byte & 15; levels[2 * i + 1] = byte >> 4; });
    let start = 0;
    const ring = ([count]) => ringOf(numbers, levels, (start += count) - count, count);
    const widest = (rings) => rings.reduce((most, { box }) => Math.max(most, (box[3] - box[1]) * 2 * data.step), 0);
    return data.yards.map((yard) => ({ ...yard, rings: yard.rings.map(ring) })).map((yard) => ({ ...yard, widest: widest(yard.rings) }));
  };
  const readRaster = () => {
    const { columns, rows, runs } = data.raster;
    const answers = new Uint32Array(columns * rows);
    const numbers = numbersOf(runs);
    for (let at = 0; numbers.more();) {
      const from = at;
      at += numbers.next();
      answers.fill(numbers.next(), from, at);
    }
    return { columns, rows, answers };
  };
  const [yards, raster] = [readYards(), readRaster()];

  // ---- places
  // The least digits that give the same 32 bits again.
  const shortest = (value) => {
    const wanted = Math.fround(value);
    const plain = (number) => (String(number).includes('e') ? number.toFixed(20).replace(/0+$/, '') : String(number));
    for (let digits = 1; ; digits++) {
      const number = Number(wanted.toPrecision(digits));
      if (digits === 9 || Math.fround(number) === wanted) return plain(number);
    }
  };
  const samePlace = (a, b) => Math.fround(a.lat) === Math.fround(b.lat) && Math.fround(a.lon) === Math.fround(b.lon);
  const metresApart = (a, b) => Math.hypot(a.lat - b.lat, (a.lon - b.lon) * Math.cos((a.lat * Math.PI) / 180)) * 111200;
  const lengthWords = (metres) => (metres < 10 ? `${metres.toFixed(1)} m` : metres < 1000 ? `${Math.round(metres)} m` : `${(metres / 1000).toFixed(metres < 1e4 ? 1 : 0)} km`);

  // The places beside the raster at which the library was asked.
  const exact = [];
  yards.forEach((yard, i) => yard.centre && exact.push({ lat: yard.centre[0], lon: yard.centre[1], answer: yard.centre[2], what: 'the centre of a yard', yard: i }));
  data.slips.forEach((slip, i) => slip && exact.push({ lat: slip[0], lon: slip[1], answer: slip[2], what: 'a slip', slip: i, stamped: slip[3] === 1 }));
  data.faults.forEach((fault, i) => exact.push({ lat: fault[0], lon: fault[1], answer: fault[2], what: 'a fault', fault: i }));
  const rasterPoint = (column, row) => ({
    lat: Math.fround(north - (north - south) * ((row + 0.5) / raster.rows)),
    lon: Math.fround(west + (east - west) * ((column + 0.5) / raster.columns)),
    answer: raster.answers[row * raster.columns + column],
    what: 'a point of the picture',
  });
  const cellOf = (place) => [((place.lon - west) / (east - west)) * raster.columns, ((north - place.lat) / (north - south)) * raster.rows];

  // The raster's point nearest to a place, or none where the place is outside the picture.
  const nearest = (place) => {
    const [column, row] = cellOf(place).map(Math.floor);
    return column >= 0 && row >= 0 && column < raster.columns && row < raster.rows ? rasterPoint(column, row) : null;
  };

  // Whether the four points about a place that the library was asked at got different answers.
  const bordersNear = (place) => {
    const [x, y] = cellOf(place).map((value) => Math.floor(value - 0.5));
    const within = (value, most) => Math.min(Math.max(value, 0), most - 1);
    const at = ([right, down]) => raster.answers[within(y + down, raster.rows) * raster.columns + within(x + right, raster.columns)];
    return new Set([[0, 0], [1, 0], [0, 1], [1, 1]].map(at)).size > 1;
  };

  // What the page holds of a place: the library's answer there, or by the picture.
  const askedAt = (place) => {
    const known = exact.find((one) => samePlace(one, place));
    if (known) return { ...known, exact: true };
    const point = nearest(place);
    if (!point) return { ...place, outside: true };
    if (samePlace(point, place)) return { ...point, exact: true };
    return { ...place, answer: point.answer, point, exact: false };
  };

  // ---- the view: a middle, and pixels for a degree of latitude
  const view = { lat: (south + north) / 2, lon: (west + east) / 2, scale: 1 };
  const size = { wide: 1, high: 1, ratio: 1 };
  let [held, chosen, moving, crosshair] = [null, -1, false, false];
  const rasterSpacing = () => ((north - south) / raster.rows) * view.scale;
  const toX = (lon) => (lon - view.lon) * view.scale * data.wide + size.wide / 2;
  const toY = (lat) => (view.lat - lat) * view.scale + size.high / 2;
  const placeAt = (x, y) => ({ lat: view.lat - (y - size.high / 2) / view.scale, lon: view.lon + (x - size.wide / 2) / view.scale / data.wide });
  const fitting = ([s, w, n, e], margin) => Math.min((size.high * margin) / Math.max(n - s, data.step), (size.wide * margin) / Math.max((e - w) * data.wide, data.step));
  const keepInside = () => {
    const least = fitting(data.frame, 0.9);
    view.scale = Math.min(Math.max(view.scale, least), Math.max(40 / data.step, least));
    view.lat = Math.min(Math.max(view.lat, south), north);
    view.lon = Math.min(Math.max(view.lon, west), east);
  };
  const frameBox = (box, margin = 0.8) => {
    [view.lat, view.lon, view.scale] = [(box[0] + box[2]) / 2, (box[1] + box[3]) / 2, fitting(box, margin)];
    changed();
  };
  const zoomAt = (factor, x = size.wide / 2, y = size.high / 2) => {
    const before = placeAt(x, y);
    view.scale *= factor;
    keepInside();
    const after = placeAt(x, y);
    [view.lat, view.lon] = [view.lat + before.lat - after.lat, view.lon + before.lon - after.lon];
    changed();
  };
  const moveBy = (x, y) => { view.lat += y / view.scale; view.lon -= x / view.scale / data.wide; changed(); };

  let [waiting, settled] = [0, 0];
  const redraw = () => { waiting = waiting || requestAnimationFrame(() => { waiting = 0; draw(); }); };
  const changed = () => {
    keepInside();
    moving = true;
    clearTimeout(settled);
    settled = setTimeout(() => { moving = false; redraw(); }, 150);
    redraw();
  };

  // ---- drawing
  const SMALL = '11px system-ui, sans-serif';
  const ink = {};
  const readInk = () => {
    const style = getComputedStyle(document.documentElement);
    for (const name of ['sea', 'edge', 'grid', 'text', 'soft', 'card', 'accent', 'good', 'bad', 'warn', 'fill']) ink[name] = style.getPropertyValue(`--${name}`).trim();
    ink.colours = data.colours.map(([red, green, blue]) => `rgb(${red}, ${green}, ${blue})`);
    rasterImage = null;
  };

  // The points of a ring that are drawn at a level; the others are less than half a pixel away.
  const thinned = (ring, level) => {
    ring.drawn[level] = ring.drawn[level] || ring.points.filter((_, i) => ring.levels[i >> 1] >= level);
    return ring.drawn[level];
  };
  const levelNow = () => {
    const steps = (moving ? 1 : 0.5) / (view.scale * data.step);
    return Math.min(Math.max(Math.floor(Math.log2(steps)) - data.base, 0), 15);
  };

  // On which sides of the window a spot is outside.
  const sidesOf = (x, y) => (x < -9 ? 1 : x > size.wide + 9 ? 2 : 0) | (y < -9 ? 4 : y > size.high + 9 ? 8 : 0);

  // Adds a ring to the path. Of points that follow each other beyond one side of the window the last is enough.
  const trace = (points) => {
    const [lonStep, latStep] = [2 * data.step * view.scale * data.wide, data.step * view.scale];
    const [left, top] = [toX(0), toY(0)];
    let [common, skipped, lastX, lastY] = [0, false, 0, 0];
    for (let i = 0; i < points.length; i += 2) {
      const x = left + points[i + 1] * lonStep;
      const y = top - points[i] * latStep;
      const sides = sidesOf(x, y);
      if (skipped && !(common & sides)) {
        pen.lineTo(lastX, lastY);
        common = sidesOf(lastX, lastY);
      }
      skipped = i > 0 && (common & sides) !== 0;
      common = skipped ? common & sides : sides;
      if (i === 0) pen.moveTo(x, y);
      else if (!skipped) pen.lineTo(x, y);
      [lastX, lastY] = [x, y];
    }
    if (skipped) pen.lineTo(lastX, lastY);
    pen.closePath();
  };
  const ringBox = ([s, w, n, e]) => [toX(w * 2 * data.step), toY(n * data.step), toX(e * 2 * data.step), toY(s * data.step)];
  const isSeen = ([left, top, right, bottom]) => right >= -9 && bottom >= -9 && left <= size.wide + 9 && top <= size.high + 9;
  // What is smaller than a pixel is one.
  const tracePath = (yard, level) => {
    const seen = yard.rings.filter((ring) => isSeen(ringBox(ring.box)));
    pen.beginPath();
    for (const ring of seen) {
      const [left, top, right, bottom] = ringBox(ring.box);
      if (right - left < 1 && bottom - top < 1) pen.rect(left, top, 1, 1);
      else trace(thinned(ring, level));
    }
    return seen.length;
  };
  // Where very many borders are seen their lines wait until the map stands still.
  let borders = 0;
  const drawYards = () => {
    const [level, quick] = [levelNow(), moving && borders > 1500];
    borders = 0;
    yards.forEach((yard, i) => {
      const [s, w, n, e] = yard.box;
      if (!isSeen([toX(w), toY(n), toX(e), toY(s)])) return;
      borders += tracePath(yard, level);
      Object.assign(pen, { globalAlpha: Number(ink.fill), fillStyle: ink.colours[yard.colour] });
      // as the library counts: inside where its borders' turns do not cancel
      pen.fill('nonzero');
      Object.assign(pen, { globalAlpha: 1, lineWidth: i === chosen ? 3 : 0.9, strokeStyle: i === chosen ? ink.accent : ink.edge });
      if (!quick) pen.stroke();
    });
  };

  // The step of the grid's lines: 1, 2 or 5 of some decimal place, at least so many pixels apart.
  const niceStep = (pixels) => {
    const least = 80 / pixels;
    const unit = 10 ** Math.floor(Math.log10(least));
    const step = [1, 2, 5, 10].map((n) => n * unit).find((value) => value >= least);
    return step > 10 ? [15, 30, 45, 90].find((value) => value >= least) || 90 : step;
  };
  const eachLine = (from, to, step, most, act) => {
    const digits = Math.max(0, Math.ceil(-Math.log10(step) - 1e-9));
    for (let k = Math.ceil(from / step); k * step <= to; k++) if (Math.abs(k * step) <= most + 1e-9) act(k * step, `${(k * step).toFixed(digits)}°`);
  };
  const eachGridLine = (onLat, onLon) => {
    const [first, last] = [placeAt(0, size.high), placeAt(size.wide, 0)];
    eachLine(first.lat, last.lat, niceStep(view.scale), 90, onLat);
    eachLine(first.lon, last.lon, niceStep(view.scale * data.wide), 180, onLon);
  };
  const drawGrid = () => {
    Object.assign(pen, { strokeStyle: ink.grid, lineWidth: 1 });
    pen.beginPath();
    eachGridLine(
      (lat) => { const y = Math.round(toY(lat)) + 0.5; pen.moveTo(0, y); pen.lineTo(size.wide, y); },
      (lon) => { const x = Math.round(toX(lon)) + 0.5; pen.moveTo(x, 0); pen.lineTo(x, size.high); },
    );
    pen.stroke();
  };
  const write = (text, x, y, colour) => {
    Object.assign(pen, { lineWidth: 3, strokeStyle: ink.sea, fillStyle: colour });
    pen.strokeText(text, x, y);
    pen.fillText(text, x, y);
  };
  const drawDegrees = () => {
    Object.assign(pen, { font: SMALL, textBaseline: 'middle', textAlign: 'left' });
    eachGridLine((lat, text) => { const y = toY(lat); if (y > 10 && y < size.high - 24) write(text, 5, y, ink.soft); }, () => {});
    pen.textAlign = 'center';
    eachGridLine(() => {}, (lon, text) => { const x = toX(lon); if (x > 40 && x < size.wide - 20) write(text, x, size.high - 10, ink.soft); });
  };

  // Names where they fit, the largest yards first.
  const drawNames = () => {
    Object.assign(pen, { font: '600 12px system-ui, sans-serif', textAlign: 'center', textBaseline: 'middle' });
    const taken = [];
    const room = (yard) => yard.widest * view.scale * data.wide;
    for (const yard of yards.filter((one) => one.centre && room(one) > 30).sort((a, b) => room(b) - room(a))) {
      const [x, y, half] = [toX(yard.centre[1]), toY(yard.centre[0]), pen.measureText(yard.name).width / 2 + 4];
      const high = (yard.box[2] - yard.box[0]) * view.scale;
      const fits = 2 * half < 1.6 * room(yard) && high > 16 && isSeen([x, y, x, y]);
      if (!fits || taken.some(([ox, oy, other]) => Math.abs(ox - x) < half + other && Math.abs(oy - y) < 16)) continue;
      taken.push([x, y, half]);
      write(yard.name, x, y, ink.text);
    }
  };

  // The raster as a picture: a point's answer all about it.
  let rasterImage = null;
  const answerColour = (number) => {
    const answer = data.answers[number];
    if (typeof answer === 'string') return [150, 150, 150, 255];
    if (answer[0] !== 1) return [214, 30, 40, 255];
    if (!answer[1].length) return [0, 0, 0, 0];
    const [zone, kind] = answer[1][0];
    return kind === 1 && typeof zone === 'number' ? [...data.colours[yards[zone].colour], 255] : [58, 74, 94, 255];
  };
  const paintRaster = () => {
    const image = document.createElement('canvas');
    [image.width, image.height] = [raster.columns, raster.rows];
    const brush = image.getContext('2d');
    const pixels = brush.createImageData(raster.columns, raster.rows);
    const colours = data.answers.map((_, i) => answerColour(i));
    raster.answers.forEach((answer, i) => pixels.data.set(colours[answer], 4 * i));
    brush.putImageData(pixels, 0, 0);
    return image;
  };
  const drawRaster = () => {
    rasterImage = rasterImage || paintRaster();
    pen.imageSmoothingEnabled = false;
    pen.drawImage(rasterImage, toX(west), toY(north), toX(east) - toX(west), toY(south) - toY(north));
  };
  const dot = (x, y, radius, sides, colour) => {
    pen.beginPath();
    for (let i = 0; i < sides; i++) pen.lineTo(x + radius * Math.sin((i / sides) * 2 * Math.PI), y - radius * Math.cos((i / sides) * 2 * Math.PI));
    pen.closePath();
    Object.assign(pen, { fillStyle: colour, lineWidth: 1.5, strokeStyle: ink.card });
    pen.fill();
    pen.stroke();
  };

  // Slips are discs where they were stamped, else standing squares; faults are triangles.
  const drawExact = () => {
    const shown = byId('way') ? byId('way').value : '';
    for (const one of exact) {
      const [x, y] = [toX(one.lon), toY(one.lat)];
      if (!isSeen([x, y, x, y])) continue;
      if (one.fault !== undefined) dot(x, y, 7, 3, ink.warn);
      if (one.slip !== undefined && (shown === '' || slipRows[one.slip].dataset.way === shown)) dot(x, y, one.stamped ? 5.5 : 7, one.stamped ? 24 : 4, one.stamped ? ink.good : ink.bad);
    }
  };
  const drawTarget = (place, colour) => {
    const [x, y] = [toX(place.lon), toY(place.lat)];
    for (const [width, style] of [[4, ink.card], [1.8, colour]]) {
      Object.assign(pen, { lineWidth: width, strokeStyle: style });
      pen.beginPath();
      pen.arc(x, y, 9, 0, 7);
      for (const [dx, dy] of [[1, 0], [-1, 0], [0, 1], [0, -1]]) { pen.moveTo(x + 5 * dx, y + 5 * dy); pen.lineTo(x + 14 * dx, y + 14 * dy); }
      pen.stroke();
    }
  };
  const drawScaleBar = () => {
    const metre = view.scale / 111200;
    const unit = 10 ** Math.floor(Math.log10(110 / metre));
    const long = [5, 2, 1].map((n) => n * unit).find((value) => value * metre <= 110);
    const [right, y] = [size.wide - 12, size.high - 26];
    Object.assign(pen, { lineWidth: 2, strokeStyle: ink.text, font: SMALL, textAlign: 'right' });
    pen.beginPath();
    for (const [x, up] of [[right - long * metre, 5], [right - long * metre, 0], [right, 0], [right, 5]]) pen.lineTo(x, y - up);
    pen.stroke();
    write(long < 1000 ? `${Number(long.toPrecision(1))} m` : `${long / 1000} km`, right, y - 12, ink.text);
  };
  const draw = () => {
    pen.setTransform(size.ratio, 0, 0, size.ratio, 0, 0);
    pen.fillStyle = ink.sea;
    pen.fillRect(0, 0, size.wide, size.high);
    drawGrid();
    drawYards();
    if (byId('dots').checked) drawRaster();
    if (!moving) drawNames();
    drawExact();
    drawDegrees();
    drawScaleBar();
    if (held) drawTarget(held, ink.accent);
    if (crosshair) drawTarget(placeAt(size.wide / 2, size.high / 2), ink.text);
  };

  // ---- what is said of a place
  const made = (name, words, className) => {
    const element = document.createElement(name);
    if (words !== undefined) element.textContent = words;
    if (className) element.className = className;
    return element;
  };
  const clockOf = (zone) => {
    try {
      return new Intl.DateTimeFormat('en-GB', { timeZone: zone, weekday: 'short', year: 'numeric', month: 'short', day: 'numeric', hour: '2-digit', minute: '2-digit', second: '2-digit', hourCycle: 'h23' });
    } catch (error) {
      return null; // no name of a time zone that this browser knows
    }
  };

  let clocks = [];
  const tick = () => clocks.forEach(([element, clock]) => { element.textContent = clock.format(new Date()); });
  const clockLine = (zone) => {
    const clock = zone && clockOf(zone);
    if (!clock) return null;
    const line = made('p', 'The hour there now: ');
    const hour = made('b');
    clocks.push([hour, clock]);
    line.append(hour, made('span', ' by the browser’s own time zones, not the library’s', 'soft'));
    return line;
  };
  const zoneCard = ([zone, kind]) => {
    const yard = typeof zone === 'number' ? yards[zone] : null;
    const card = made('div', undefined, yard ? `zone c${yard.colour}` : 'zone');
    const title = made('p');
    title.append(made('b', yard ? yard.title : zone), `: ${data.kinds[kind]}`);
    card.append(title);
    if (yard) card.append(byId(`yard-${zone}`).querySelector('.fields').cloneNode(true), clockLine(yard.zone) || '');
    return card;
  };
  const placeWords = (place) => `${shortest(place.lat)} ${shortest(place.lon)}`;
  const howKnown = (told) => {
    const line = made('p');
    if (told.exact) line.append(made('span', 'the library’s verdict', 'mark good'), ` at ${told.what}`);
    else if (told.outside) line.append(made('span', 'outside the picture', 'mark warn'), ' the library was not asked here');
    else line.append(made('span', 'by the picture', 'mark warn'), ` the library was asked at ${placeWords(told.point)}, ${lengthWords(metresApart(told, told.point))} away`);
    return line;
  };
  const answerParts = (answer) => {
    if (typeof answer === 'string') return [made('p', `refused: ${answer}`)];
    const zones = answer[1].length ? answer[1].map(zoneCard) : [made('p', 'no zone holds the fix')];
    return [...zones, made('p', `search: ${data.ends[answer[0]]}`, answer[0] === 1 ? 'soft' : 'note')];
  };
  const slipLine = (row) => made('p', [...row.cells].map((cell) => cell.textContent).join(', '), row.dataset.way === '0' ? 'stamped' : 'unstamped');
  const tell = (told) => {
    clocks = [];
    const slips = exact.filter((one) => one.slip !== undefined && told.exact && samePlace(one, told)).map((one) => slipLine(slipRows[one.slip]));
    const parts = [made('h3', placeWords(told)), howKnown(told), ...slips];
    if (!told.outside) parts.push(...answerParts(data.answers[told.answer]));
    if (!told.exact && !told.outside && bordersNear(told)) parts.push(made('p', 'The points about it got different answers: a border is near.', 'note'));
    if (!told.exact) parts.push(made('p', 'The exact answer:', 'soft'), made('code', `${data.command} ${placeWords(told)}`));
    byId('place').replaceChildren(...parts);
    Object.assign(byId('place').dataset, { lat: shortest(told.lat), lon: shortest(told.lon), exact: String(Boolean(told.exact)), asked: told.outside ? '' : placeWords(told.point || told) });
    tick();
  };
  const titleOf = ([zone]) => (typeof zone === 'number' ? yards[zone].title : zone);
  const oneLine = (told) => {
    const answer = told.outside ? null : data.answers[told.answer];
    const found = !answer ? 'outside the picture' : typeof answer === 'string' ? 'refused' : answer[1].map(titleOf).join('; ') || 'no zone';
    return `${told.lat.toFixed(6)} ${told.lon.toFixed(6)}: ${found}${told.exact || told.outside ? '' : ' (by the picture)'}`;
  };
  const hold = ({ lat, lon }) => {
    held = { lat, lon };
    const told = askedAt(held);
    tell(told);
    byId('said').textContent = oneLine(told);
    redraw();
  };
  const holdAndShow = (lat, lon, scale = 0) => {
    Object.assign(view, { lat, lon, scale: Math.max(view.scale, scale) });
    hold({ lat, lon });
    changed();
  };
  const letGo = () => { held = null; choose(-1); redraw(); };

  // The place that is pointed at; close to one that the library was asked at, that one.
  const pointedAt = (x, y) => {
    const away = (one) => Math.hypot(toX(one.lon) - x, toY(one.lat) - y);
    const near = exact.filter((one) => one.yard === undefined && away(one) < 8).sort((a, b) => away(a) - away(b))[0];
    if (near) return near;
    const place = placeAt(x, y);
    const point = rasterSpacing() >= 12 && nearest(place);
    return point && away(point) < 4 ? point : place;
  };
  const hover = (x, y) => {
    const told = askedAt(pointedAt(x, y));
    byId('at').textContent = oneLine(told);
    if (!held) tell(told);
  };

  // ---- the lists
  const slipRows = byId('slips') ? [...byId('slips').rows] : [];
  const buttons = yards.map((_, i) => byId(`yard-${i}`).querySelector('button'));
  const choose = (number) => {
    chosen = number;
    buttons.forEach((button, i) => {
      button.setAttribute('aria-expanded', String(i === number));
      byId(`about-${i}`).hidden = i !== number;
    });
  };
  const chooseYard = (number) => {
    if (number === chosen) return letGo();
    choose(number);
    const { box, centre } = yards[number];
    frameBox(box);
    if (centre) hold({ lat: centre[0], lon: centre[1] });
  };
  const search = () => {
    const wanted = byId('search').value.trim().toLowerCase();
    const texts = (button, i) => (button.textContent + byId(`about-${i}`).querySelector('.fields').textContent).toLowerCase();
    const shown = buttons.map((button, i) => texts(button, i).includes(wanted));
    shown.forEach((yes, i) => { byId(`yard-${i}`).hidden = !yes; });
    byId('found').textContent = wanted ? `${shown.filter(Boolean).length} of ${buttons.length}` : '';
  };
  const showFault = (number) => {
    const [lat, lon, , yard] = data.faults[number];
    holdAndShow(lat, lon, yard === null ? 0 : 3 * fitting(yards[yard].box, 0.8));
  };
  const markSlip = (number) => slipRows.forEach((row, i) => row.classList.toggle('chosen', i === number));
  const showSlip = (number) => {
    const [lat, lon] = data.slips[number];
    markSlip(number);
    holdAndShow(lat, lon);
  };
  const filterDay = () => {
    const wanted = byId('way').value;
    slipRows.forEach((row) => { row.hidden = wanted !== '' && row.dataset.way !== wanted; });
    byId('shown').textContent = wanted === '' ? '' : `${slipRows.filter((row) => !row.hidden).length} of ${slipRows.length} lines`;
    redraw();
  };
  const onButton = (event) => {
    const button = event.target.closest('button');
    const { yard, fault, slip } = button ? button.dataset : {};
    if (yard !== undefined) chooseYard(Number(yard));
    if (fault !== undefined) showFault(Number(fault));
    if (slip !== undefined) showSlip(Number(slip));
  };
  const goTo = (event) => {
    event.preventDefault();
    const [lat, lon, ...more] = byId('where').value.trim().split(/[\s,;]+/).map(Number);
    const good = !more.length && Math.abs(lat) <= 90 && Math.abs(lon) <= 180;
    byId('where').setAttribute('aria-invalid', String(!good));
    if (!good) return byId('place').replaceChildren(made('p', 'Two numbers of degrees are wanted, the latitude first: 52.52 13.40', 'note'));
    holdAndShow(Math.fround(lat), Math.fround(lon));
  };

  // ---- hands: mouse, fingers, keys
  const fingers = new Map();
  let moved = 0;
  const spot = (event) => { const box = canvas.getBoundingClientRect(); return { x: event.clientX - box.left, y: event.clientY - box.top }; };
  const onMove = (event) => {
    const to = spot(event);
    const from = fingers.get(event.pointerId);
    if (!from) return hover(to.x, to.y);
    const other = [...fingers].filter(([id]) => id !== event.pointerId).map(([, place]) => place)[0];
    moved += Math.hypot(to.x - from.x, to.y - from.y);
    if (other) {
      const apart = (place) => Math.max(Math.hypot(place.x - other.x, place.y - other.y), 1);
      zoomAt(apart(to) / apart(from), (to.x + other.x) / 2, (to.y + other.y) / 2);
    }
    moveBy((to.x - from.x) / (other ? 2 : 1), (to.y - from.y) / (other ? 2 : 1));
    fingers.set(event.pointerId, to);
  };
  const onUp = (event) => {
    const at = fingers.get(event.pointerId);
    fingers.delete(event.pointerId);
    if (!at || fingers.size || event.type !== 'pointerup' || moved >= 5) return;
    const one = pointedAt(at.x, at.y);
    if (one.slip !== undefined) markSlip(one.slip);
    hold(one);
  };
  const onKey = (event) => {
    const far = event.shiftKey ? 4 : 80;
    const keys = {
      ArrowLeft: () => moveBy(far, 0), ArrowRight: () => moveBy(-far, 0), ArrowUp: () => moveBy(0, far), ArrowDown: () => moveBy(0, -far),
      '+': () => zoomAt(1.6), '=': () => zoomAt(1.6), '-': () => zoomAt(1 / 1.6), _: () => zoomAt(1 / 1.6), 0: () => frameBox(data.frame, 0.96),
      Enter: () => hold(pointedAt(size.wide / 2, size.high / 2)), Escape: letGo,
    };
    if (!keys[event.key] || event.ctrlKey || event.metaKey || event.altKey) return;
    event.preventDefault();
    crosshair = event.key !== 'Escape';
    keys[event.key]();
  };
  const onDown = (event) => {
    [moved, crosshair] = [fingers.size ? moved : 0, false];
    canvas.setPointerCapture(event.pointerId);
    fingers.set(event.pointerId, spot(event));
  };
  const onWheel = (event) => {
    event.preventDefault();
    const at = spot(event);
    zoomAt(2 ** (-event.deltaY * (event.deltaMode ? 0.05 : 0.002)), at.x, at.y);
  };
  const onSearchKey = (event) => {
    const first = document.querySelector('#yards li:not([hidden]) button');
    if (event.key === 'Enter' && first && Number(first.dataset.yard) !== chosen) chooseYard(Number(first.dataset.yard));
  };

  // ---- beginning
  const resize = () => {
    const first = size.wide === 1;
    const all = Math.abs(view.scale - fitting(data.frame, 0.96)) < 1e-9 * view.scale;
    Object.assign(size, { wide: canvas.clientWidth || 1, high: canvas.clientHeight || 1, ratio: window.devicePixelRatio || 1 });
    [canvas.width, canvas.height] = [Math.round(size.wide * size.ratio), Math.round(size.high * size.ratio)];
    if (first || all) frameBox(data.frame, 0.96);
    else changed();
  };
  const listen = (element, event, act, how) => element && element.addEventListener(event, act, how);
  listen(document, 'click', onButton);
  listen(byId('search'), 'input', search);
  listen(byId('search'), 'keydown', onSearchKey);
  listen(byId('way'), 'change', filterDay);
  listen(byId('in'), 'click', () => zoomAt(1.6));
  listen(byId('out'), 'click', () => zoomAt(1 / 1.6));
  listen(byId('all'), 'click', () => frameBox(data.frame, 0.96));
  listen(byId('dots'), 'change', redraw);
  listen(byId('go'), 'submit', goTo);
  listen(canvas, 'pointerdown', onDown);
  listen(canvas, 'pointermove', onMove);
  for (const end of ['pointerup', 'pointercancel']) listen(canvas, end, onUp);
  listen(canvas, 'pointerleave', () => { byId('at').textContent = ''; });
  listen(canvas, 'wheel', onWheel, { passive: false });
  listen(canvas, 'keydown', onKey);
  listen(canvas, 'blur', () => { crosshair = false; redraw(); });

  readInk();
  new ResizeObserver(resize).observe(canvas);
  const scheme = matchMedia('(prefers-color-scheme: dark)');
  scheme.addEventListener('change', () => { readInk(); redraw(); });
  setInterval(tick, 1000);
  resize();
})();
