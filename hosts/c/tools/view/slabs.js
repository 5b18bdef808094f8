// The map of slabs: distance to the right, dihedral angle upward.
const SLABS = {left: 52, right: 12, top: 22, below: 44, least: 5};

function slabCells(width, t) {
    const room = Math.max(200, width - SLABS.left - SLABS.right);
    const w = Math.max(SLABS.least, room / t.nR);
    const h = t.atom ? 42 : Math.max(SLABS.least, Math.min(26, 260 / t.nOmega));
    return {w, h, x: ri => SLABS.left + ri * w, y: oi => SLABS.top + (t.nOmega - 1 - oi) * h};
}

function slabRect(t, cells, ri, oi) {
    const row = t.row(t.slab(ri, oi));
    const place = {x: cells.x(ri), y: cells.y(oi), width: cells.w, height: cells.h};
    const rect = node('rect', {...place, fill: t.colour(row), 'data-slab': `${ri},${oi}`, 'shape-rendering': 'crispEdges'});
    rect.append(node('title', {}, slabWords(t, ri, oi)));
    return row.kind === NEAREST ? [rect, node('rect', {...place, fill: 'url(#nearest)', 'pointer-events': 'none'})] : [rect];
}

function slabAxes(t, cells) {
    const bottom = SLABS.top + t.nOmega * cells.h, labels = [];
    for (let ri = 0; ri < t.nR; ri += every(t.nR, t.nR * cells.w / 56))
        labels.push(label(cells.x(ri) + cells.w / 2, bottom + 16, 'middle', short(t.distance(ri))));
    for (let oi = 0; !t.atom && oi < t.nOmega; oi += every(t.nOmega, t.nOmega * cells.h / 18))
        labels.push(label(SLABS.left - 6, cells.y(oi) + cells.h / 2 + 4, 'end', short(t.omega(oi) * DEGREES)));
    labels.push(label(SLABS.left, bottom + 36, 'start', 'distance (unit of the table)'));
    if (!t.atom)
        labels.push(label(0, 12, 'start', 'dihedral (degrees)'));
    return labels;
}

function nearestPattern() {
    const pattern = node('pattern', {
        id: 'nearest', width: 6, height: 6, patternUnits: 'userSpaceOnUse', patternTransform: 'rotate(45)',
    });
    pattern.append(node('rect', {width: 2, height: 6, fill: '#fff', 'fill-opacity': 0.65}));
    return node('defs', {}, pattern);
}

function drawSlabs(t) {
    const holder = byId('slabs'), cells = slabCells(holder.clientWidth, t);
    const picture = svg(SLABS.left + t.nR * cells.w + SLABS.right, SLABS.top + t.nOmega * cells.h + SLABS.below);
    picture.append(nearestPattern());
    for (let ri = 0; ri < t.nR; ri++)
        for (let oi = 0; oi < t.nOmega; oi++)
            picture.append(...slabRect(t, cells, ri, oi));
    picture.append(node('rect', {
        class: 'frame-line', x: SLABS.left, y: SLABS.top, width: t.nR * cells.w, height: t.nOmega * cells.h, 'pointer-events': 'none',
    }));
    const frame = {width: cells.w, height: cells.h};
    picture.append(...slabAxes(t, cells));
    picture.append(node('g', {id: 'chosen'}, node('rect', {class: 'around', ...frame}), node('rect', {class: 'chosen', ...frame})));
    holder.replaceChildren(picture);
    return cells;
}

// The frame of the slab that is chosen, kept in sight.
function markSlab(cells, ri, oi) {
    const holder = byId('slabs'), x = cells.x(ri), y = cells.y(oi);
    byId('chosen').setAttribute('transform', `translate(${x} ${y})`);
    if (x < holder.scrollLeft || x + cells.w > holder.scrollLeft + holder.clientWidth)
        holder.scrollLeft = x - holder.clientWidth / 2;
    if (y < holder.scrollTop || y + cells.h > holder.scrollTop + holder.clientHeight)
        holder.scrollTop = y - holder.clientHeight / 2;
}

function legendItem(words, colour, nearest) {
    const box = svg(14, 14), item = document.createElement('span');
    box.append(node('rect', {width: 14, height: 14, fill: colour, stroke: '#999'}));
    if (nearest)
        box.append(node('rect', {width: 14, height: 14, fill: 'url(#nearest)'}));
    item.append(box, ` ${words}`);
    return item;
}

function drawLegend(t) {
    const facts = t.facts, items = [];
    for (const kind of [REPULSIVE, SCALAR])
        items.push(legendItem(`${facts.kinds[kind]} (${facts.letters[kind]})`, facts.colours[kind], false));
    for (let m = 0; m < t.count[2]; m++)
        items.push(legendItem(`level ${m} (${facts.letters[INTERPOLATED][m]})`, facts.levelColours[m], false));
    const last = facts.letters[NEAREST][t.count[2] - 1];
    items.push(legendItem(`with stripes: nearest (${t.count[2] > 1 ? `a to ${last}` : 'a'})`, facts.levelColours[0], true));
    byId('legend').replaceChildren(...items);
}
