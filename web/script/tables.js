// Tables of a planned road: those of the page, and those for a spreadsheet, which are byte for byte the tables that the
// engine's other programs write (listing --csv).

// The lots [p, q); without lots the road is the only one.
function lotRanges(job) {
    const stations = job.lots.length > 1 ? job.lots : [job.header.begin, job.header.end];
    return stations.slice(1).map((end, i) => [stations[i], end]);
}

// Amounts by lot and side, then by level: lots, and what lies outside them.
function lotAmounts(planner, plan) {
    const ranges = lotRanges(plan.job);
    const sides = plan.sides.map((side) => {
        const lots = planner.amounts(side.schedule, ranges);
        const together = LEVELS.map((_, i) => sumOf(lots.map((lot) => lot[i])));
        return {lots, together, outside: side.amounts.map((all, i) => all - together[i]), road: side.amounts};
    });
    return {ranges, sides};
}

// The columns that a table of quantities has: each side and level that stands somewhere on the road.
function quantityColumns(plan) {
    return plan.sides.flatMap((side) => LEVELS.filter((level) => side.amounts[level - 1] > 0).map((level) => ({side: side.side, level})));
}

function quantityRows(planner, plan) {
    const {ranges, sides} = lotAmounts(planner, plan);
    const columns = quantityColumns(plan);
    const row = (name, ends, amounts) => {
        const found = columns.map(({side, level}) => amounts[side][level - 1]);
        return {name, ends, found, all: sumOf(found)};
    };
    const rows = [];
    if (plan.job.lots.length > 1) {
        ranges.forEach((range, i) => rows.push(row(said('lots.lot', i + 1), range, sides.map((side) => side.lots[i]))));
        rows.push(row(said('lots.allLots'), [ranges[0][0], ranges[ranges.length - 1][1]], sides.map((side) => side.together)));
        rows.push(row(said('lots.outside'), null, sides.map((side) => side.outside)));
    }
    rows.push(row(said('lots.road'), [plan.job.header.begin, plan.job.header.end], sides.map((side) => side.road)));
    return {columns, rows};
}

// Tables for a spreadsheet: English heads, decimal points, lines that end as RFC 4180 has it.
const CSV_SIDES = ['right', 'left'];
const CSV_LETTERS = ['R', 'L'];

class CsvTable {
    // columns: [head, whether it is a station].
    constructor(texts, columns, inKilometres) {
        this.columns = columns;
        this.units = [['mm', String], ['m', metres], ['km', kilometres]].slice(0, inKilometres ? 3 : 2);
        const heads = this.units.flatMap(([unit]) => columns.filter(([, isStation]) => unit !== 'km' || isStation).map(([head]) => head + '_' + unit));
        this.rows = [[texts, ...heads].join(',')];
    }

    add(texts, cells) {
        const row = [...texts];
        for (const [unit, words] of this.units) {
            cells.forEach((cell, i) => { if (unit !== 'km' || this.columns[i][1]) row.push(cell === null ? '' : words(cell)); });
        }
        this.rows.push(row.join(','));
    }

    text() {
        return this.rows.map((row) => row + '\r\n').join('');
    }
}

// A name: with a ' in front where a spreadsheet would take it for a formula, in quotes where a comma or a quote is in it.
function csvName(label) {
    const guarded = '=+-@'.includes(label[0]) && label ? "'" + label : label;
    return /[,"]/.test(label) ? '"' + guarded.replace(/"/g, '""') + '"' : guarded;
}

function runsCsv(plan, km) {
    const table = new CsvTable('side,run,level', [['start', true], ['end', true], ['length', false]], km);
    for (const side of plan.sides) {
        side.runs.forEach((run, i) => table.add([CSV_SIDES[side.side], CSV_LETTERS[side.side] + (i + 1), run.level], [run.start, run.end, run.length]));
    }
    return table.text();
}

function quantitiesCsv(planner, plan, km) {
    const table = new CsvTable('side,lot,level', [['lot_start', true], ['lot_end', true], ['quantity', false]], km);
    const {ranges, sides} = lotAmounts(planner, plan);
    sides.forEach((side, number) => {
        const rows = ranges.map(([p, q], i) => [String(i + 1), p, q, side.lots[i]]);
        if (plan.job.lots.length > 1) rows.push(['outside', null, null, side.outside]);
        for (const [lot, p, q, amounts] of rows) {
            for (const level of LEVELS) if (side.road[level - 1]) table.add([CSV_SIDES[number], lot, level], [p, q, amounts[level - 1]]);
        }
    });
    return table.text();
}

function hazardsCsv(plan, km) {
    const columns = [['start', true], ['end', true], ['near_offset', false], ['far_offset', false], ['envelope_start', true], ['envelope_end', true]];
    const table = new CsvTable('hazard,name,side,level', columns, km);
    plan.job.hazards.forEach((hazard, i) => {
        const envelope = plan.alone[i].envelope || [null, null];
        table.add([i, csvName(hazard.label), CSV_SIDES[hazard.side], hazard.level], [hazard.start, hazard.end, hazard.near, hazard.far, ...envelope]);
    });
    return table.text();
}

function overhangsCsv(plan) {
    const table = new CsvTable('side', [['before', false], ['after', false]], false);
    for (const side of plan.sides) table.add([CSV_SIDES[side.side]], [side.before, side.after]);
    return table.text();
}

function csvOf(planner, plan, name, km) {
    if (name === 'runs') return runsCsv(plan, km);
    if (name === 'quantities') return quantitiesCsv(planner, plan, km);
    return name === 'hazards' ? hazardsCsv(plan, km) : overhangsCsv(plan);
}

// The body of a table, row by row: only the cells that changed are written anew, so that a table of 511 runs follows a
// hazard that is dragged.
class TableBody {
    constructor(body) {
        this.body = body;
        this.rows = [];
    }

    // rows: lists of texts; make is given a new row's element once.
    show(rows, make) {
        while (this.rows.length > rows.length) this.rows.pop().element.remove();
        rows.forEach((cells, i) => {
            if (this.rows[i] && this.rows[i].cells.length !== cells.length) {
                while (this.rows.length > i) this.rows.pop().element.remove();
            }
            if (!this.rows[i]) this.rows.push(this.added(cells, i, make));
            const row = this.rows[i];
            cells.forEach((cell, at) => {
                if (row.cells[at] === cell) return;
                row.places[at].textContent = cell;
                row.cells[at] = cell;
            });
        });
    }

    added(cells, i, make) {
        const element = this.body.insertRow();
        const places = cells.map((_, at) => {
            const place = document.createElement(at === 0 ? 'th' : 'td');
            if (at === 0) place.scope = 'row';
            element.append(place);
            return place;
        });
        if (make) make(element, i, places);
        return {element, places, cells: cells.map(() => '')};
    }
}
