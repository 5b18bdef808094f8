// Numbers and rows in words, as the tools have them.

// So many digits at most, without zeros at the end.
function digits(x, most) {
    if (!Number.isFinite(x))
        return Number.isNaN(x) ? 'NaN' : x > 0 ? 'infinity' : '-infinity';
    const text = Object.is(x, -0) ? '-0' : x.toPrecision(most);
    return text.includes('.') ? text.replace(/\.?0*(?=e|$)/, '') : text;
}

// Nine digits, so that a float comes back to the bit.
function exact(x) {
    return digits(x, 9);
}

// A double, to the bit.
function double(x) {
    return String(x);
}

function short(x) {
    return digits(x, 4);
}

function grouped(n) {
    return n.toLocaleString('en');
}

function counted(n, word) {
    return `${grouped(n)} ${word}${n === 1 ? '' : 's'}`;
}

function tableWords(t) {
    const parts = [
        t.atom ? 'A table against an atom' : 'A table of two molecules',
        `${counted(t.nR, 'distance')} from ${double(t.rmin)} to ${double(t.rmax)} by ${double(t.dr)}`,
    ];
    if (!t.atom)
        parts.push(`${counted(t.nOmega, 'dihedral bin')} of ${short(t.step)} rad (${short(t.step * DEGREES)} degrees)`);
    parts.push(counted(t.count[2], 'level'), `${grouped(t.count[4])} energies`);
    if (t.terms > 0)
        parts.push(`a long-range tail of ${counted(t.terms, 'term')}, which this page does not show`);
    return [...parts, counted(t.data.byteLength, 'byte')].join(' · ');
}

function binWords(t, ri, oi) {
    const r = `distance ${short(t.distance(ri))}`;
    return t.atom ? r : `${r}, dihedral ${short(t.omega(oi))} rad (${short(t.omega(oi) * DEGREES)} degrees)`;
}

function rowWords(t, slab) {
    const row = t.row(slab), kind = t.facts.kinds[row.kind], s = t.summary(slab);
    if (row.kind < NEAREST)
        return row.kind === SCALAR ? `${kind} ${short(row.scalar)}` : kind;
    return `${kind} level ${row.level} (${t.letter(row)}), energies from ${short(s.lowest)} to ${short(s.highest)}`;
}

function slabWords(t, ri, oi) {
    return `${t.atom ? `Slab ${ri}` : `Slab (${ri}, ${oi})`}: ${binWords(t, ri, oi)}: ${rowWords(t, t.slab(ri, oi))}`;
}

// What icotable export --csv has in its columns.
function rowItems(t, ri, oi) {
    const slab = t.slab(ri, oi), row = t.row(slab), items = [['ri', String(ri)], ['r', double(t.distance(ri))]];
    if (!t.atom)
        items.push(['oi', String(oi)], ['omega', `${double(t.omega(oi))} rad`]);
    items.push(['kind', t.facts.kinds[row.kind]], ['letter', t.letter(row)]);
    if (row.kind === SCALAR)
        items.push(['scalar', exact(row.scalar)]);
    if (row.kind >= NEAREST) {
        const s = t.summary(slab);
        items.push(['level', `${row.level} (${t.vertices(row.level)} vertices)`], ['offset', String(row.offset)]);
        items.push(['energies', String(row.count)], ['lowest', exact(s.lowest)], ['mean', exact(s.mean)], ['highest', exact(s.highest)]);
    }
    return items;
}

function spanItems(t, span) {
    if (span.number !== 0)
        return [['refused', `with ${span.number}: ${t.facts.words[span.number]}`]];
    const at = [span.first, span.last].map(ri => short(t.distance(ri)));
    return [
        ['bins', `${span.first} to ${span.last} (distance ${at[0]} to ${at[1]})`],
        ['smallest', exact(span.smallest)], ['largest', exact(span.largest)], ['Scalar NaNs', String(span.nans)],
    ];
}
