// The profile over distance at one dihedral bin, and the span in it. Energies beyond a reach, which is the depth of the well
// as in icotable map, or that of the chosen distance, are drawn at the edge.
const PROFILE = {left: 66, right: 12, top: 10, height: 300, below: 42};

function profileRows(t, oi) {
    const rows = [];
    for (let ri = 0; ri < t.nR; ri++)
        rows.push({ri, kind: t.row(t.slab(ri, oi)).kind, ...t.summary(t.slab(ri, oi))});
    return rows;
}

// How far up and down the picture goes.
function profileDepth(rows, ri) {
    const own = Math.max(Math.abs(rows[ri].lowest), Math.abs(rows[ri].highest));
    if (byId('reach').value === 'slab' && own > 0 && own < Infinity)
        return own;
    let least = 0, most = 0;
    for (const row of rows)
        if (Number.isFinite(row.lowest)) {
            least = Math.min(least, row.lowest);
            most = Math.max(most, row.lowest);
        }
    return -least || most || 1;
}

function profileScale(width, t, depth) {
    const wide = Math.max(160, width - PROFILE.left - PROFILE.right), middle = PROFILE.top + PROFILE.height / 2;
    return {
        wide, depth, middle,
        x: r => PROFILE.left + wide * ((r - t.rmin) / t.dr + 0.5) / (t.nR + 1),
        y: e => middle - Math.min(Math.max(e / depth, -1), 1) * (PROFILE.height / 2 - 6),
    };
}

// Lines are broken at walls and NaNs.
function profilePath(rows, at, t, name) {
    let path = '', broken = true;
    for (const row of rows) {
        const drawn = row.kind !== REPULSIVE && !Number.isNaN(row[name]);
        if (drawn)
            path += `${broken ? 'M' : 'L'}${at.x(t.distance(row.ri)).toFixed(1)} ${at.y(row[name]).toFixed(1)}`;
        broken = !drawn;
    }
    return node('path', {class: `line ${name}`, d: path});
}

function profileBand(rows, at, t) {
    const parts = [];
    let run = [];
    for (const row of [...rows, {kind: REPULSIVE}]) {
        if (row.kind !== REPULSIVE && !Number.isNaN(row.lowest)) {
            run.push(row);
            continue;
        }
        const up = run.map(r => `${at.x(t.distance(r.ri)).toFixed(1)},${at.y(r.highest).toFixed(1)}`);
        const down = run.reverse().map(r => `${at.x(t.distance(r.ri)).toFixed(1)},${at.y(r.lowest).toFixed(1)}`);
        if (up.length > 1)
            parts.push(node('polygon', {class: 'between', points: [...up, ...down].join(' ')}));
        run = [];
    }
    return parts;
}

// Where there are not too many, the lowest energies as points, too: a row that stands by itself has no line.
function profilePoints(rows, at, t) {
    const drawn = rows.filter(row => rows.length <= 100 && row.kind !== REPULSIVE && !Number.isNaN(row.lowest));
    return drawn.map(row => node('circle', {class: 'point', cx: at.x(t.distance(row.ri)), cy: at.y(row.lowest), r: 2.5}));
}

// Walls as columns, NaNs as crosses.
function profileMarks(rows, at, t) {
    const half = at.wide / (t.nR + 1) / 2, marks = [];
    for (const row of rows) {
        const x = at.x(t.distance(row.ri));
        if (row.kind === REPULSIVE)
            marks.push(node('rect', {class: 'wall', x: x - half, y: PROFILE.top, width: 2 * half, height: PROFILE.height}));
        else if (Number.isNaN(row.lowest))
            marks.push(node('path', {class: 'lost', d: `M${x - 4} ${at.middle - 4}l8 8m0 -8l-8 8`}));
    }
    return marks;
}

function profileSpan(at, span, low, high) {
    if (span.number !== 0)
        return [];
    const x = at.x(low), width = Math.max(2, at.x(high) - x);
    const parts = [node('rect', {class: 'spanned', x, y: PROFILE.top, width, height: PROFILE.height})];
    for (const e of [span.smallest, span.largest])
        if (!Number.isNaN(e))
            parts.push(node('path', {class: 'bound', d: `M${x} ${at.y(e)}h${width}`}));
    return parts;
}

function profileAxes(at, t) {
    const bottom = PROFILE.top + PROFILE.height, right = PROFILE.left + at.wide, parts = [];
    parts.push(node('rect', {class: 'frame-line', x: PROFILE.left, y: PROFILE.top, width: at.wide, height: PROFILE.height}));
    parts.push(node('path', {class: 'zero', d: `M${PROFILE.left} ${at.middle}H${right}`}));
    for (const e of [-at.depth, 0, at.depth])
        parts.push(label(PROFILE.left - 6, at.y(e) + 4, 'end', short(e)));
    for (let ri = 0; ri < t.nR; ri += every(t.nR, at.wide / 56))
        parts.push(label(at.x(t.distance(ri)), bottom + 16, 'middle', short(t.distance(ri))));
    parts.push(label(PROFILE.left + at.wide / 2, bottom + 34, 'middle', 'distance (unit of the table)'));
    const turned = {transform: `rotate(-90 12 ${at.middle})`};
    parts.push(label(12, at.middle + 4, 'middle', 'energy (unit of the table)', turned));
    return parts;
}

function drawProfile(t, state, span) {
    const holder = byId('profile'), rows = profileRows(t, state.oi), at = profileScale(holder.clientWidth, t, profileDepth(rows, state.ri));
    const picture = svg(PROFILE.left + at.wide + PROFILE.right, PROFILE.top + PROFILE.height + PROFILE.below);
    const x = at.x(t.distance(state.ri));
    picture.append(...profileMarks(rows, at, t), ...profileSpan(at, span, state.low, state.high), ...profileBand(rows, at, t));
    picture.append(...profileAxes(at, t), ...['highest', 'mean', 'lowest'].map(name => profilePath(rows, at, t, name)));
    picture.append(...profilePoints(rows, at, t), node('path', {class: 'here', d: `M${x} ${PROFILE.top}v${PROFILE.height}`}));
    holder.replaceChildren(picture);
    const where = t.atom ? '' : ` at dihedral bin ${state.oi} (${short(t.omega(state.oi) * DEGREES)} degrees)`;
    byId('profile-words').textContent = `Lowest, mean and highest energy of each distance's row${where}; energies beyond ${short(at.depth)} `
        + 'are drawn at the edge. A Scalar row has one number. A click chooses a distance.';
    if (byId('profile-details').open)
        fillProfileTable(t, rows);
    return px => Math.min(Math.max(Math.round((px - PROFILE.left) / at.wide * (t.nR + 1) - 0.5), 0), t.nR - 1);
}

function fillProfileTable(t, rows) {
    const line = (tag, words) => {
        const tr = document.createElement('tr');
        for (const word of words) {
            const cell = document.createElement(tag);
            cell.textContent = word;
            tr.append(cell);
        }
        return tr;
    };
    const lines = rows.map(row => {
        const numbers = row.kind === REPULSIVE ? ['', '', ''] : [row.lowest, row.mean, row.highest].map(exact);
        return line('td', [row.ri, double(t.distance(row.ri)), t.facts.kinds[row.kind], ...numbers]);
    });
    byId('profile-table').replaceChildren(line('th', ['bin', 'distance', 'kind', 'lowest', 'mean', 'highest']), ...lines);
}
