// Words: one table, words.json, in English and Spanish. # stands for a value.

const LANGUAGES = ['en', 'es'];
let language = 'en';

function said(key, ...values) {
    const both = WORDS[key];
    if (!both) throw new Error('no words for ' + key);
    let at = 0;
    return both[LANGUAGES.indexOf(language)].replace(/#/g, () => String(values[at++]));
}

// Refusals, in the words of barrier_help.h: which calls can be refused with a number.
const READS_JOB = ['barrier_plan', 'barrier_level', 'barrier_corners', 'barrier_offset', 'barrier_reach'];
const READS_BYTES = [...READS_JOB, 'barrier_open'];
const READS_SCHEDULE = ['barrier_quantity', 'barrier_quantities', 'barrier_lookup'];
const TESTS_MEMORY = ['barrier_add', 'barrier_withdraw', 'barrier_open_schedule', 'barrier_keep', 'barrier_return', 'barrier_open_reach'];
const GIVEN = {
    1: READS_BYTES,
    2: READS_BYTES,
    3: READS_BYTES,
    4: [...READS_JOB, 'barrier_add'],
    5: [...READS_JOB, 'barrier_add'],
    7: READS_BYTES,
    8: ['barrier_plan', 'barrier_level', 'barrier_corners', 'barrier_open_schedule', ...READS_SCHEDULE],
    9: ['barrier_plan', 'barrier_open_schedule'],
    10: READS_SCHEDULE,
    11: ['barrier_quantities'],
    12: ['barrier_add', 'barrier_withdraw', 'barrier_open_reach'],
    13: ['barrier_keep', 'barrier_return'],
    14: ['barrier_corners', 'barrier_offset', 'barrier_reach'],
    15: ['barrier_add'],
    16: ['barrier_layout'],
    17: ['barrier_layout'],
};

function isGiven(call, number, value) {
    if (number === 0) return true;
    if (number === 3 && value === 0) return TESTS_MEMORY.includes(call);
    if (number === 3 && value > 15) return false;
    return (GIVEN[number] || []).includes(call);
}

// The key of a refusal's words: those of the call, where it has its own.
function refusalKey(table, call, number, value) {
    if (!isGiven(call, number, value)) return table + '.unknown';
    if (number === 3 && value === 0) return table + '.3.memory';
    const keys = [`${table}.${number}.${call}.${value}`, `${table}.${number}.${call}`, `${table}.${number}`];
    return keys.find((key) => key in WORDS);
}

function headerName(number) {
    const field = INTERFACE.header.find((known) => known.number === number);
    return field && number < 14 ? said('road.' + field.key) : said('header.' + number);
}

function headerRange(number) {
    const field = INTERFACE.header.find((known) => known.number === number);
    return field && number < 14 && number !== 3 ? said('road.range', field.low, field.high) : said('range.' + number);
}

function refusalWords(table, refused) {
    const key = refusalKey(table, refused.call, refused.number, refused.value);
    const words = said(key, refused.value);
    return words.replace('@', () => headerName(refused.value)).replace('%', () => headerRange(refused.value));
}

function reasonOf(refused) {
    return refusalWords('says', refused);
}

function remedyOf(refused) {
    return refusalWords('mends', refused);
}
