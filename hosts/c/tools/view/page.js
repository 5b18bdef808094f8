// What is chosen, and what follows from it. The address behind # holds it, so that a place in a table can be sent:
// #slab=RI,OI&a=V&b=V&low=R&high=R.
const facts = JSON.parse(byId('facts').textContent);
const state = {ri: 0, oi: 0, level: null, a: 0, b: 0, low: 0, high: 0};
let table = null, cells = null, binAt = null;

// The file's parts, one script element each, which are not needed any more.
function readTable() {
    const bytes = new Uint8Array(facts.bytes);
    let at = 0;
    for (const part of document.querySelectorAll('script.table')) {
        at = decodeInto(bytes, at, part.textContent);
        part.remove();
    }
    if (at !== facts.bytes)
        throw new Error(`${at} bytes of the table are here, and it has ${facts.bytes}: the page is not whole`);
    return new Table(bytes, facts);
}

function clamp(value, low, high) {
    return Number.isFinite(value) ? Math.min(Math.max(value, low), high) : low;
}

// An empty text is no number.
function numberOf(text) {
    return text.trim() === '' ? NaN : Number(text);
}

function whole(text, count) {
    return clamp(Math.trunc(Number(text)), 0, count - 1);
}

// The chosen vertices are of a level; on another one's mesh they become those nearest to them.
function keepVertices() {
    const {kind, level} = table.row(table.slab(state.ri, state.oi));
    if (kind < NEAREST)
        return;
    for (const name of ['a', 'b']) {
        const at = 3 * state[name];
        if (state.level !== null && state.level !== level)
            state[name] = nearestOf(facts.vertices[level], facts.vertices[state.level].slice(at, at + 3));
        state[name] = clamp(state[name], 0, table.vertices(level) - 1);
        byId(name).max = table.vertices(level) - 1;
    }
    state.level = level;
}

// The vertices of a slab's lowest energy, of the first of them.
function lowestPair(slab) {
    const row = table.row(slab), at = Math.max(0, table.energies(row).indexOf(table.summary(slab).lowest));
    const n = table.atom || row.kind < NEAREST ? 1 : table.vertices(row.level);
    return {a: Math.floor(at / n), b: at % n};
}

// To the slab with the lowest energy of all, the first of those, and a span around it.
function startAtWell() {
    let best = 0, least = Infinity;
    for (let slab = 0; slab < table.count[3]; slab++) {
        const {lowest} = table.summary(slab);
        if (Number.isFinite(lowest) && lowest < least) {
            best = slab;
            least = lowest;
        }
    }
    Object.assign(state, {ri: Math.floor(best / table.nOmega), oi: best % table.nOmega, ...lowestPair(best)});
    state.low = clamp(table.distance(state.ri - 2), table.rmin, table.rmax);
    state.high = clamp(table.distance(state.ri + 2), table.rmin, table.rmax);
}

function fromAddress() {
    const given = new URLSearchParams(location.hash.slice(1));
    if (given.has('slab')) {
        const [ri, oi] = given.get('slab').split(',');
        state.ri = whole(ri, table.nR);
        state.oi = whole(oi, table.nOmega);
    }
    for (const name of ['a', 'b'])
        if (given.has(name)) {
            state[name] = whole(given.get(name), Infinity);
            state.level = null;
        }
    for (const name of ['low', 'high'])
        if (given.has(name))
            state[name] = numberOf(given.get(name));
}

function toAddress() {
    const {ri, oi, a, b, low, high} = state;
    try {
        history.replaceState(null, '', `#slab=${ri},${oi}&a=${a}&b=${b}&low=${low}&high=${high}`);
    } catch {
        // a page inside another one may have no address of its own
    }
}

function showSpan() {
    const span = table.span(state.low, state.high, state.oi);
    for (const name of ['low', 'high'])
        if (Number.isFinite(state[name])) {
            byId(`${name}-slider`).value = state[name];
            if (document.activeElement !== byId(name))
                byId(name).value = state[name];
        }
    fillList(byId('span'), spanItems(table, span));
    binAt = drawProfile(table, state, span);
}

function show() {
    keepVertices();
    markSlab(cells, state.ri, state.oi);
    for (const name of ['ri', 'oi', 'a', 'b'])
        if (document.activeElement !== byId(name))
            byId(name).value = state[name];
    byId('slab-words').textContent = slabWords(table, state.ri, state.oi);
    fillList(byId('row'), rowItems(table, state.ri, state.oi));
    showSpan();
    drawEnergies(table, state);
    toAddress();
}

function choose(changes) {
    Object.assign(state, changes);
    show();
}

function chooseSlab(ri, oi) {
    choose({ri: clamp(ri, 0, table.nR - 1), oi: clamp(oi, 0, table.nOmega - 1)});
}

function slabKey(event) {
    const {ri, oi} = state;
    const places = {
        ArrowLeft: [ri - 1, oi], ArrowRight: [ri + 1, oi], ArrowUp: [ri, oi + 1], ArrowDown: [ri, oi - 1], Home: [0, oi], End: [table.nR - 1, oi],
    };
    if (places[event.key] === undefined)
        return;
    event.preventDefault();
    chooseSlab(...places[event.key]);
}

function matrixKey(event) {
    const {a, b} = state;
    const pairs = {ArrowLeft: {b: b - 1}, ArrowRight: {b: b + 1}, ArrowUp: {a: a - 1}, ArrowDown: {a: a + 1}};
    if (pairs[event.key] === undefined)
        return;
    event.preventDefault();
    choose(pairs[event.key]);
}

function matrixClick(event) {
    const canvas = byId('matrix'), box = canvas.getBoundingClientRect(), n = canvas.width;
    choose({
        a: clamp(Math.floor((event.clientY - box.top) / box.height * n), 0, n - 1),
        b: clamp(Math.floor((event.clientX - box.left) / box.width * n), 0, n - 1),
    });
}

function sphereClick(name, event) {
    const canvas = event.target, box = canvas.getBoundingClientRect(), row = table.row(table.slab(state.ri, state.oi));
    const x = Math.floor((event.clientX - box.left) / box.width * canvas.width);
    const y = Math.floor((event.clientY - box.top) / box.height * canvas.height);
    const v = nearestMap(table, row.level, canvas)[y * canvas.width + x];
    if (v >= 0)
        choose({[name]: v});
}

function listenToSlabs() {
    byId('slabs').addEventListener('keydown', slabKey);
    byId('slabs').addEventListener('click', event => {
        const place = event.target.dataset.slab;
        if (place !== undefined)
            chooseSlab(...place.split(',').map(Number));
    });
    byId('profile').addEventListener('click', event => chooseSlab(binAt(event.clientX - byId('profile').getBoundingClientRect().left), state.oi));
    byId('ri').addEventListener('change', event => chooseSlab(whole(event.target.value, table.nR), state.oi));
    byId('oi').addEventListener('change', event => chooseSlab(state.ri, whole(event.target.value, table.nOmega)));
    byId('profile-details').addEventListener('toggle', showSpan);
}

function listen() {
    listenToSlabs();
    byId('matrix').addEventListener('click', matrixClick);
    byId('matrix').addEventListener('keydown', matrixKey);
    for (const name of ['a', 'b']) {
        byId(`${name}-sphere`).addEventListener('click', event => sphereClick(name, event));
        byId(name).addEventListener('change', event => choose({[name]: whole(event.target.value, Infinity)}));
    }
    for (const name of ['low', 'high'])
        for (const id of [name, `${name}-slider`])
            byId(id).addEventListener('input', event => choose({[name]: numberOf(event.target.value)}));
    byId('to-lowest').addEventListener('click', () => choose(lowestPair(table.slab(state.ri, state.oi))));
    for (const id of ['scale', 'other', 'reach'])
        byId(id).addEventListener('change', show);
    addEventListener('hashchange', () => {
        fromAddress();
        show();
    });
    addEventListener('resize', () => {
        cells = drawSlabs(table);
        show();
    });
}

// What the table's kind alone decides.
function prepare() {
    byId('table-words').textContent = tableWords(table);
    byId('footer').textContent = `Made by icotable view, version ${facts.version}. The page holds the whole table and fetches nothing.`;
    byId('ri').max = table.nR - 1;
    byId('oi').max = table.nOmega - 1;
    for (const name of ['low', 'high']) {
        byId(`${name}-slider`).min = table.rmin;
        byId(`${name}-slider`).max = table.rmax;
    }
    for (const id of ['oi-label', 'b-label', 'b-figure', 'matrix-figure', 'other-label'])
        byId(id).hidden = table.atom;
    byId('a-name').textContent = table.atom ? 'vertex' : 'vertex a';
    byId('sphere-note').textContent = 'A sphere is drawn whole, with equal areas (Hammer): +x in the middle, +y to the right, +z upward. A vertex has the '
        + 'colour of its number on the directions that are nearest to it: these are the stored energies, not readings. A click chooses a vertex'
        + (table.atom ? '.' : '; in the matrix, where arrow keys move too, a pair.');
    byId('span-note').textContent = 'The smallest and the largest energy in the rows of all bins that the span touches'
        + (table.atom ? ', by the rule of icotable_span, which the library has for two molecules. '
            : ', at the chosen dihedral bin: what icotable_span answers. ')
        + 'Readings of Scalar, Repulsive and nearest rows lie between the two; interpolated rows add their energies, and bound no reading.';
    byId('main').hidden = false;
}

function begin() {
    table = readTable();
    prepare();
    startAtWell();
    fromAddress();
    cells = drawSlabs(table);
    drawLegend(table);
    listen();
    show();
}

try {
    begin();
} catch (error) {
    byId('table-words').textContent = `Nothing can be shown: ${error.message}`;
}
