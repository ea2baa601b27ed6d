// The engine: a WebAssembly module of portable/barrier_engine.c, and nothing else calculates on this page.
//
// The calls have the C form for wasm32: a struct that is replied goes to a place that is handed over first, a struct that
// is handed over goes by its address, 64-bit numbers are BigInts. interface.json says what each call takes and replies;
// a test holds it to include/barrier.h.

class Refused extends Error {
    constructor(call, number, value) {
        super(call + ' refused ' + number + ' with ' + value);
        this.call = call;
        this.number = number;
        this.value = value;
    }
}

// A number as the page has it: exact as a Number, or a BigInt where it is above 2 to the 53rd.
function plainNumber(big) {
    return big <= BigInt(Number.MAX_SAFE_INTEGER) ? Number(big) : big;
}

// A place in a struct: its name, its type and how many there are.
function fieldOf(words) {
    const found = /^(?:(\w+) )?(\w+)(?:\[(\w+)\])?$/.exec(words);
    return {name: found[2], type: found[1] || 'u64', count: found[3] ? INTERFACE.constants[found[3]] : 0};
}

function sizeOf(type) {
    if (type === 'u64' || type === 'double') return 8;
    return INTERFACE.structs[type].map(fieldOf).reduce((sum, field) => sum + sizeOf(field.type) * (field.count || 1), 0);
}

class Engine {
    constructor(exports) {
        this.exports = exports;
        this.memory = exports.memory;
        this.next = exports.__heap_base.value;
        this.area = {
            reply: this.room(Math.max(...Object.keys(INTERFACE.structs).map(sizeOf))),
            bytes: [this.room(INTERFACE.constants.BARRIER_JOB_MAX), this.room(INTERFACE.constants.BARRIER_JOB_MAX)],
            output: this.room(INTERFACE.constants.BARRIER_SCHEDULE_MAX),
            numbers: this.room(16 * (INTERFACE.constants.BARRIER_RANGES_MAX + 1)),
            hazard: this.room(sizeOf('barrier_hazard')),
            open: this.room(INTERFACE.open_job_bytes),
        };
        const pages = Math.ceil(this.next / 65536) - this.memory.buffer.byteLength / 65536;
        if (pages > 0) this.memory.grow(pages);
        this.view = new DataView(this.memory.buffer);
        this.all = new Uint8Array(this.memory.buffer);
        this.replyFields = {};
        for (const type of Object.keys(INTERFACE.structs)) this.replyFields[type] = INTERFACE.structs[type].map(fieldOf);
    }

    // So many bytes of the module's memory, aligned as C aligns 64-bit numbers.
    room(bytes) {
        const at = Math.ceil(this.next / 16) * 16;
        this.next = at + bytes;
        return at;
    }

    has(call) {
        return typeof this.exports[call] === 'function';
    }

    version() {
        const number = this.exports.barrier_version() >>> 0;
        return [Math.floor(number / 1000000), Math.floor(number / 1000) % 1000, number % 1000].join('.');
    }

    put(at, numbers) {
        numbers.forEach((number, i) => this.view.setBigUint64(at + 8 * i, BigInt.asUintN(64, BigInt(number)), true));
    }

    // Bytes that are only read. No accepted job is longer than the area, so what is cut off changes no reply.
    lend(bytes, place) {
        const cut = bytes.subarray(0, INTERFACE.constants.BARRIER_JOB_MAX);
        this.all.set(cut, this.area.bytes[place]);
        return [this.area.bytes[place], cut.length];
    }

    lendNumbers(numbers) {
        if (numbers.length > 2 * (INTERFACE.constants.BARRIER_RANGES_MAX + 1)) throw new RangeError('too many numbers');
        this.put(this.area.numbers, numbers);
        return [this.area.numbers, numbers.length];
    }

    words(kinds, values) {
        const found = [];
        let at = 0;
        let lent = 0;
        for (const kind of kinds) {
            if (kind === 'bytes') found.push(...this.lend(values[at++], lent++));
            else if (kind === 'numbers') found.push(...this.lendNumbers(values[at++]));
            else if (kind === 'u64') found.push(BigInt.asUintN(64, BigInt(values[at++])));
            else if (kind === 'name') found.push(values[at++]);
            else if (kind === 'output') found.push(this.area.output, INTERFACE.constants.BARRIER_SCHEDULE_MAX);
            else if (kind === 'open') found.push(this.area.open);
            else {
                this.put(this.area.hazard, values[at++]);
                found.push(this.area.hazard);
            }
        }
        return found;
    }

    readOne(type, at) {
        if (type === 'u64') return plainNumber(this.view.getBigUint64(at, true));
        if (type === 'double') return this.view.getFloat64(at, true);
        return this.read(type, at);
    }

    read(type, at) {
        const found = {};
        for (const field of this.replyFields[type]) {
            const size = sizeOf(field.type);
            if (field.count) {
                found[field.name] = [];
                for (let i = 0; i < field.count; i++) found[field.name].push(this.readOne(field.type, at + i * size));
            } else found[field.name] = this.readOne(field.type, at);
            at += size * (field.count || 1);
        }
        return found;
    }

    // The reply of a call, refused or not.
    reply(call, ...values) {
        const [type, ...kinds] = INTERFACE.calls[call] || INTERFACE.later_calls[call];
        this.exports[call](this.area.reply, ...this.words(kinds, values));
        return this.read(type, this.area.reply);
    }

    // The reply of a call that is done; a refusal is thrown.
    done(call, ...values) {
        const reply = this.reply(call, ...values);
        if (reply.number !== INTERFACE.numbers.BARRIER_DONE) throw new Refused(call, reply.number, reply.value || 0);
        return reply;
    }

    // A schedule that was just written, its bytes and its overhangs.
    written(reply) {
        return {bytes: this.all.slice(this.area.output, this.area.output + reply.value), before: reply.before, after: reply.after};
    }

    plan(job, side) {
        return this.written(this.done('barrier_plan', job, side));
    }

    openSchedule(side) {
        return this.written(this.done('barrier_open_schedule', side));
    }

    // The open job's memory, to be put back.
    saved() {
        return this.all.slice(this.area.open, this.area.open + INTERFACE.open_job_bytes);
    }

    restore(memory) {
        this.all.set(memory, this.area.open);
    }
}

async function engineOf(base64) {
    const letters = atob(base64);
    const bytes = new Uint8Array(letters.length);
    for (let i = 0; i < letters.length; i++) bytes[i] = letters.charCodeAt(i);
    const {instance} = await WebAssembly.instantiate(bytes, {});
    return new Engine(instance.exports);
}
