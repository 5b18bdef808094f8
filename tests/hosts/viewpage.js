// What the scripts of a page of icotable view say of its table, without a browser: node viewpage.js PAGE < QUERIES. The queries are a
// JSON list of [low, high, dihedral bin]; an end is a string. Writes JSON: of each slab its items and the bits of its energies, and
// of each query the span with the bits of both energies. The scripts are the page's own, up to what needs a page.
'use strict';
const fs = require('fs');

const page = fs.readFileSync(process.argv[2], 'utf8');
const scripts = page.slice(page.lastIndexOf("<script>\n'use strict';") + 8, page.lastIndexOf('// Parts of pictures'));
const facts = JSON.parse(/<script type="application\/json" id="facts">([^<]*)<\/script>/.exec(page)[1]);
const {Table, decodeInto, rowItems, spanItems} = new Function(`${scripts}; return {Table, decodeInto, rowItems, spanItems};`)();

const bytes = new Uint8Array(facts.bytes);
let at = 0;
for (const part of page.matchAll(/<script type="text\/plain" class="table">([^<]*)<\/script>/g))
    at = decodeInto(bytes, at, part[1]);
const t = new Table(bytes, facts);

function bits(x) {
    const room = Buffer.alloc(8);
    room.writeDoubleBE(x);
    return room.toString('hex');
}

const slabs = [];
for (let slab = 0; slab < t.count[3]; slab++) {
    const energies = Buffer.alloc(4 * t.row(slab).count);
    t.energies(t.row(slab)).forEach((e, i) => energies.writeFloatLE(e, 4 * i));
    slabs.push({items: rowItems(t, Math.floor(slab / t.nOmega), slab % t.nOmega), energies: energies.toString('base64'), mean: bits(t.summary(slab).mean)});
}
const spans = JSON.parse(fs.readFileSync(0, 'utf8')).map(([low, high, oi]) => {
    const span = t.span(Number(low), Number(high), oi);
    return {...span, smallest: bits(span.smallest), largest: bits(span.largest), items: spanItems(t, span)};
});
process.stdout.write(JSON.stringify({bytes: at, rmax: bits(t.rmax), slabs, spans}));
