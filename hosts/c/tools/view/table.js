// The table file by the layout of docs/FORMAT.md. The library looked it over before the page was made, so nothing is asked
// of it again. Numbers are as the file has them: floats, widened.
const SCALAR = 0, REPULSIVE = 1, NEAREST = 2, INTERPOLATED = 3;
const DEGREES = 57.29577951308232;

class Table {
    constructor(bytes, facts) {
        this.data = new DataView(bytes.buffer, bytes.byteOffset, bytes.byteLength);
        this.facts = facts;
        this.start = [];
        this.count = [];
        let at = 0;
        for (const width of [8, 4, 4, 10, 4]) {
            const count = this.u32(at);
            this.start.push(at + 4);
            this.count.push(count);
            at += 4 + width * count;
        }
        this.atom = this.count[0] === 2;
        this.rmin = this.f64(this.start[0]);
        this.dr = this.f64(this.start[0] + 8);
        this.rmax = facts.rmax;
        this.step = this.atom ? 0 : this.f64(this.start[0] + 16);
        this.nR = this.u32(this.start[1]);
        this.nOmega = this.atom ? 1 : this.u32(this.start[1] + 4);
        this.terms = at < bytes.byteLength ? this.u32(at) : 0;
        this.summaries = new Map();
    }

    u32(at) {
        return this.data.getUint32(at, true);
    }

    f64(at) {
        return this.data.getFloat64(at, true);
    }

    vertices(level) {
        return this.u32(this.start[2] + 4 * level);
    }

    distance(ri) {
        return this.rmin + ri * this.dr;
    }

    omega(oi) {
        return oi * this.step;
    }

    slab(ri, oi) {
        return ri * this.nOmega + oi;
    }

    row(slab) {
        const at = this.start[3] + 10 * slab;
        const kind = this.data.getUint8(at), level = this.data.getUint8(at + 1), mesh = kind >= NEAREST;
        return {
            kind, level, offset: this.u32(at + 2), scalar: this.data.getFloat32(at + 6, true),
            count: mesh ? this.vertices(level) ** (this.atom ? 1 : 2) : 0,
        };
    }

    energy(row, i) {
        return this.data.getFloat32(this.start[4] + 4 * (row.offset + i), true);
    }

    energies(row) {
        const all = new Float64Array(row.count);
        for (let i = 0; i < row.count; i++)
            all[i] = this.energy(row, i);
        return all;
    }

    // Of a slab: the lowest, mean and highest energy that its row has.
    summary(slab) {
        let found = this.summaries.get(slab);
        if (found === undefined) {
            found = this.summarised(this.row(slab));
            this.summaries.set(slab, found);
        }
        return found;
    }

    summarised(row) {
        if (row.kind < NEAREST) {
            const e = row.kind === SCALAR ? row.scalar : Infinity;
            return {lowest: e, mean: e, highest: e};
        }
        let lowest = this.energy(row, 0), highest = lowest, sum = 0;
        for (let i = 0; i < row.count; i++) {
            const e = this.energy(row, i);
            lowest = e < lowest ? e : lowest;
            highest = e > highest ? e : highest;
            sum += e;
        }
        return {lowest, mean: sum / row.count, highest};
    }

    // The bin of a distance that is not outside the table.
    distanceBin(r) {
        return Math.min(Math.trunc((r - this.rmin) / this.dr + 0.5), this.nR - 1);
    }

    // The rule of icotable_span (docs/SPEC.md, section 24) at a dihedral bin; against an atom the same rule over its rows.
    span(low, high, oi) {
        const none = {first: 0, last: 0, smallest: 0, largest: 0, nans: 0};
        if (Number.isNaN(low) || Number.isNaN(high))
            return {number: 18, ...none};
        if (low > high || low < this.rmin || high < this.rmin || low > this.rmax || high > this.rmax)
            return {number: 26, ...none};
        const found = {number: 0, first: this.distanceBin(low), last: this.distanceBin(high), smallest: NaN, largest: NaN, nans: 0};
        for (let ri = found.first; ri <= found.last; ri++)
            this.widen(found, this.row(this.slab(ri, oi)));
        return found;
    }

    // NaNs are passed over, those of Scalar rows counted; of equal energies the first stays.
    widen(found, row) {
        const add = e => {
            if (Number.isNaN(e))
                return;
            found.smallest = found.smallest <= e ? found.smallest : e;
            found.largest = found.largest >= e ? found.largest : e;
        };
        if (row.kind === SCALAR) {
            found.nans += Number.isNaN(row.scalar) ? 1 : 0;
            add(row.scalar);
        } else if (row.kind === REPULSIVE) {
            add(Infinity);
        } else {
            for (let i = 0; i < row.count; i++)
                add(this.energy(row, i));
        }
    }

    letter(row) {
        const own = this.facts.letters[row.kind];
        return row.kind < NEAREST ? own : own[row.level];
    }

    colour(row) {
        return row.kind < NEAREST ? this.facts.colours[row.kind] : this.facts.levelColours[row.level];
    }
}

// A base64 text to the place of a list; answers the place behind it.
function decodeInto(list, at, text) {
    const letters = atob(text);
    for (let i = 0; i < letters.length; i++)
        list[at + i] = letters.charCodeAt(i);
    return at + letters.length;
}
