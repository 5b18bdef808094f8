// Parts of pictures that several of them have.
function byId(id) {
    return document.getElementById(id);
}

// The page's own pictures have the name of SVG.
const SVG = document.querySelector('svg').namespaceURI;

function node(name, attributes, ...children) {
    const made = document.createElementNS(SVG, name);
    for (const [key, value] of Object.entries(attributes))
        made.setAttribute(key, value);
    made.append(...children);
    return made;
}

function label(x, y, anchor, words, more = {}) {
    return node('text', {x, y, 'text-anchor': anchor, ...more}, words);
}

function svg(width, height) {
    return node('svg', {width, height, viewBox: `0 0 ${width} ${height}`, 'aria-hidden': 'true'});
}

// A list of names and values; rebuilt as a whole.
function fillList(list, items) {
    list.replaceChildren();
    for (const [name, value] of items) {
        const dt = document.createElement('dt'), dd = document.createElement('dd');
        dt.textContent = name;
        dd.textContent = value;
        dd.dataset.name = name;
        list.append(dt, dd);
    }
}

// Which of so many labels there is room for: every so many-th.
function every(count, room) {
    return Math.max(1, Math.ceil(count / Math.max(1, room)));
}

function mix(stops, t) {
    const at = Math.min(Math.max(t, 0), 1) * (stops.length - 1), k = Math.min(Math.floor(at), stops.length - 2);
    return stops[k].map((c, i) => Math.round(c + (at - k) * (stops[k + 1][i] - c)));
}

// Blue below 0, red above; and from dark blue to yellow. Both are told apart without red or green.
const AROUND = [[33, 102, 172], [67, 147, 195], [146, 197, 222], [247, 247, 247], [244, 165, 130], [214, 96, 77], [178, 24, 43]];
const UPWARD = [[0, 32, 77], [53, 69, 108], [102, 105, 112], [148, 142, 119], [200, 184, 102], [255, 234, 70]];

// Of a scale: its ends and colours. The lowest and the highest energy are finite.
function makeScale(lowest, highest, choice) {
    if (choice === 'range' && lowest < highest)
        return {low: lowest, high: highest, stops: UPWARD};
    const depth = lowest < 0 ? -lowest : highest || 1;
    return {low: -depth, high: depth, stops: AROUND};
}

// Energies beyond the ends have their colours; a NaN, which a mean of both infinities is, is grey.
function colourOf(scale, e) {
    return Number.isNaN(e) ? [128, 128, 128] : mix(scale.stops, (e - scale.low) / (scale.high - scale.low));
}
