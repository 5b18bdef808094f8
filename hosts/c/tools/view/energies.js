// The energies of a Mesh row over its two meshes: a matrix of all of them, and a sphere for each direction.

// The map of a sphere is Hammer's, of equal areas: +x in the middle, +y to the right, +z upward.
function directionAt(x, y) {
    if (x * x / 16 + y * y / 4 > 0.5)
        return null;
    const z = Math.sqrt(1 - x * x / 16 - y * y / 4);
    const longitude = 2 * Math.atan2(z * x, 2 * (2 * z * z - 1)), latitude = Math.asin(z * y);
    return [Math.cos(latitude) * Math.cos(longitude), Math.cos(latitude) * Math.sin(longitude), Math.sin(latitude)];
}

function placeOf(direction) {
    const flat = Math.hypot(direction[0], direction[1]), half = Math.atan2(direction[1], direction[0]) / 2;
    const d = Math.sqrt(1 + flat * Math.cos(half));
    return [2 * Math.SQRT2 * flat * Math.sin(half) / d, Math.SQRT2 * direction[2] / d];
}

// Where a place of the map is among pixels.
function pixelOf(canvas, [x, y]) {
    return [(x / (2 * Math.SQRT2) + 1) / 2 * canvas.width, (1 - y / Math.SQRT2) / 2 * canvas.height];
}

function nearestOf(vertices, d) {
    let best = -2, found = 0;
    for (let v = 0; 3 * v < vertices.length; v++) {
        const cosine = vertices[3 * v] * d[0] + vertices[3 * v + 1] * d[1] + vertices[3 * v + 2] * d[2];
        if (cosine > best) {
            best = cosine;
            found = v;
        }
    }
    return found;
}

const nearestMaps = new Map();

// The vertex of each pixel, -1 outside the sphere; kept, since it is the same for all slabs of a level.
function nearestMap(t, level, canvas) {
    let map = nearestMaps.get(level);
    if (map !== undefined)
        return map;
    const {width, height} = canvas;
    map = new Int16Array(width * height).fill(-1);
    for (let i = 0; i < map.length; i++) {
        const x = 2 * Math.SQRT2 * (2 * (i % width + 0.5) / width - 1), y = Math.SQRT2 * (1 - 2 * (Math.floor(i / width) + 0.5) / height);
        const d = directionAt(x, y);
        if (d !== null)
            map[i] = nearestOf(t.facts.vertices[level], d);
    }
    nearestMaps.set(level, map);
    return map;
}

function setPixel(image, i, colour, shade) {
    for (let k = 0; k < 3; k++)
        image.data[4 * i + k] = colour[k] * shade;
    image.data[4 * i + 3] = 255;
}

// One number a vertex, over the directions that are nearest to it; a ring at the chosen one.
function drawSphere(t, canvas, level, values, scale, chosen) {
    const map = nearestMap(t, level, canvas), context = canvas.getContext('2d'), {width, height} = canvas;
    const image = context.createImageData(width, height), colours = Array.from(values, e => colourOf(scale, e));
    const edges = values.length <= 200;
    for (let i = 0; i < map.length; i++) {
        if (map[i] < 0)
            continue;
        const edge = edges && (map[i] !== map[i + 1] || map[i] !== map[i + width]);
        setPixel(image, i, colours[map[i]], edge ? 0.82 : 1);
    }
    context.putImageData(image, 0, 0);
    const [x, y] = pixelOf(canvas, placeOf(t.facts.vertices[level].slice(3 * chosen, 3 * chosen + 3)));
    for (const [colour, wide] of [['#fff', 5], ['#000', 2]]) {
        context.beginPath();
        context.arc(x, y, 7, 0, 2 * Math.PI);
        context.lineWidth = wide;
        context.strokeStyle = colour;
        context.stroke();
    }
}

// Of each vertex of one direction: the lowest or the mean energy over the other one's vertices, or that at the chosen one.
function overOther(energies, n, first, choice, chosen) {
    const values = new Float64Array(n);
    for (let v = 0; v < n; v++) {
        const at = w => energies[first ? v * n + w : w * n + v];
        let least = Infinity, sum = 0;
        for (let w = 0; w < n; w++) {
            least = Math.min(least, at(w));
            sum += at(w);
        }
        values[v] = choice === 'chosen' ? at(chosen) : choice === 'mean' ? sum / n : least;
    }
    return values;
}

function drawMatrix(energies, n, scale, state) {
    const canvas = byId('matrix'), mark = byId('mark');
    canvas.width = canvas.height = n;
    const context = canvas.getContext('2d'), image = context.createImageData(n, n);
    for (let i = 0; i < n * n; i++)
        setPixel(image, i, colourOf(scale, energies[i]), 1);
    context.putImageData(image, 0, 0);
    mark.style.left = `calc(${100 * (state.b + 0.5) / n}% - 5px)`;
    mark.style.top = `calc(${100 * (state.a + 0.5) / n}% - 5px)`;
    mark.style.width = mark.style.height = '10px';
}

function finiteRange(t, energies, choice) {
    let lowest = Infinity, highest = -Infinity;
    const add = e => {
        if (Number.isFinite(e)) {
            lowest = Math.min(lowest, e);
            highest = Math.max(highest, e);
        }
    };
    if (choice === 'table')
        for (let slab = 0; slab < t.count[3]; slab++)
            [t.summary(slab).lowest, t.summary(slab).highest].forEach(add);
    else
        energies.forEach(add);
    return lowest <= highest ? [lowest, highest] : [0, 0];
}

function drawScale(scale) {
    const wide = Math.max(120, Math.min(340, byId('scale-bar').clientWidth - 60)), picture = svg(wide + 60, 34), steps = 85;
    for (let k = 0; k < steps; k++)
        picture.append(node('rect', {
            x: 30 + k * wide / steps, y: 0, width: wide / steps + 0.5, height: 14, fill: `rgb(${mix(scale.stops, k / (steps - 1))})`,
        }));
    for (const part of [0, 0.5, 1])
        picture.append(label(30 + part * wide, 30, 'middle', short(scale.low + part * (scale.high - scale.low))));
    byId('scale-bar').replaceChildren(picture);
    byId('scale-words').textContent = `Colours from ${short(scale.low)} to ${short(scale.high)} (unit of the table's energies); energies beyond an end, `
        + 'infinite ones too, have its colour.';
}

function directionWords(t, level, v) {
    return t.facts.vertices[level].slice(3 * v, 3 * v + 3).map(c => c.toFixed(4)).join(', ');
}

function pairWords(t, row, energies, n, state) {
    const a = `${state.a}, direction (${directionWords(t, row.level, state.a)})`;
    if (t.atom)
        return `At vertex ${a}: energy ${exact(energies[state.a])}.`;
    const b = `${state.b}, direction (${directionWords(t, row.level, state.b)})`;
    return `At vertex a = ${a} and vertex b = ${b}: energy ${exact(energies[state.a * n + state.b])}.`;
}

const OTHER = {lowest: 'lowest energy over all', mean: 'mean energy over all', chosen: 'energy at the chosen'};

function drawPair(t, row, energies, n, state, scale, choice) {
    drawSphere(t, byId('a-sphere'), row.level, overOther(energies, n, true, choice, state.b), scale, state.a);
    drawSphere(t, byId('b-sphere'), row.level, overOther(energies, n, false, choice, state.a), scale, state.b);
    drawMatrix(energies, n, scale, state);
    byId('a-words').textContent = `Direction a, in the frame of the first molecule, toward the second: ${OTHER[choice]} b`;
    const b = 'Direction b, in the frame of the second molecule toward the first, turned around z by omega';
    byId('b-words').textContent = `${b}: ${OTHER[choice]} a`;
    byId('matrix-words').textContent = `All ${grouped(n * n)} energies: a line for each vertex a, downward, a column for each vertex b`;
}

function drawEnergies(t, state) {
    const row = t.row(t.slab(state.ri, state.oi)), mesh = row.kind >= NEAREST;
    byId('energies').hidden = !mesh;
    byId('no-energies').hidden = mesh;
    if (!mesh) {
        byId('no-energies').textContent = `A ${t.facts.kinds[row.kind]} row holds no energies over meshes`
            + (row.kind === SCALAR ? `: its number, ${exact(row.scalar)}, stands for all directions.` : ': every direction is forbidden.');
        return;
    }
    const n = t.vertices(row.level), energies = t.energies(row), choice = byId('scale').value;
    const scale = makeScale(...finiteRange(t, energies, choice), choice);
    drawScale(scale);
    if (t.atom) {
        drawSphere(t, byId('a-sphere'), row.level, energies, scale, state.a);
        byId('a-words').textContent = 'Direction of the atom, in the frame of the molecule: the energy at each vertex';
    } else {
        drawPair(t, row, energies, n, state, scale, byId('other').value);
    }
    byId('pair-words').textContent = pairWords(t, row, energies, n, state);
}
