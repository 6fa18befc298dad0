'use strict';
// The machine of the page: it hands texts and numbers to the compiled code, and reads what that wrote. No order is obeyed
// here, and no row or printed code is read here.
const ENDINGS = {
    0: 'stopped', 3: 'refused', 4: 'limit', 5: 'no order', 6: 'no tape', 7: 'paper full',
    10: 'no memory', 11: 'too long', 12: 'no room',
};
const NO_CODE = 32; // what stands for the last printed code where nothing was printed
const NO_LOCATION = 1024; // what stands for the location of an item that places no word
const ROOMS = ['text', 'rows', 'words', 'digits', 'paper', 'note', 'registers', 'lengths', 'listing', 'order', 'tape', 'codes', 'items', 'meaning'];
const HIGHEST = 65535; // the largest number of 16 digits
const ONE = ['registers', 'lengths', 'meaning']; // rooms of one record: a call takes the address alone

// Whether this browser has memories of 64-bit addresses: a module with such a memory and nothing else is valid.
function hasWideMemories() {
    return WebAssembly.validate(Uint8Array.of(0, 97, 115, 109, 1, 0, 0, 0, 5, 3, 1, 4, 1));
}

class Machine {
    constructor(module) {
        this.module = module;
        this.begin();
    }

    begin() {
        this.exports = new WebAssembly.Instance(this.module, {}).exports;
        [this.orders, this.meanings, this.signs] = [new Map(), new Map(), new Map()];
        this.mounted = undefined; // the rows in the room of the tape
        this.rooms = {};
        ROOMS.forEach((name, kind) => {
            this.rooms[name] = { at: BigInt(this.exports.room(kind)), items: this.exports.room_items(kind) };
        });
    }

    // This many bytes of a room.
    bytes(name, count) {
        return new Uint8Array(this.exports.memory.buffer, Number(this.rooms[name].at), count);
    }

    // A list of numbers in a room.
    numbers(name, Numbers, count = Number(this.rooms[name].items)) {
        return new Numbers(this.exports.memory.buffer, Number(this.rooms[name].at), count);
    }

    // A call of the compiled code, with rooms by their names, each of them an address and a length.
    call(name, ...given) {
        const words = given.flatMap((word) => {
            if (typeof word !== 'string') {
                return [word];
            }
            const { at, items } = this.rooms[word];
            return ONE.includes(word) ? [at] : [at, items];
        });
        try {
            return this.exports[name](...words);
        } catch (fault) {
            this.begin(); // memory that a call left incomplete is not used again
            throw fault;
        }
    }

    // Writes a text for the next call, and gives its address and length.
    put(text) {
        const bytes = new TextEncoder().encode(text).subarray(0, Number(this.rooms.text.items));
        this.bytes('text', bytes.length).set(bytes);
        return [this.rooms.text.at, BigInt(bytes.length)];
    }

    // The text of this many bytes of a room.
    text(name, count) {
        return new TextDecoder().decode(this.bytes(name, count));
    }

    // What a call reports that writes one text or a note.
    told(status, room) {
        const [out, note] = this.numbers('lengths', BigUint64Array);
        return { status, ending: ENDINGS[status], out: status === 0 ? this.bytes(room, Number(out)).slice() : new Uint8Array(0),
            note: status < 12 && status !== 10 ? this.text('note', Number(note)) : '' };
    }

    // The codes of the rows of a tape's text, or of the tape of a source.
    rows(program) {
        const [at, length] = this.put(program.text);
        const status = program.kind === 'source'
            ? this.call('page_source_rows', at, length, program.small ? 1 : 0, 'rows', 'note', 'lengths')
            : this.call('page_tape_rows', at, length, 'rows', 'note', 'lengths');
        return this.told(status, 'rows');
    }

    // The listing of a source.
    listing(program) {
        const [at, length] = this.put(program.text);
        const status = this.call('page_listing', at, length, program.small ? 1 : 0, 'listing', 'note', 'lengths');
        return this.told(status, 'listing');
    }

    // The text of a source's tape.
    punched(program) {
        const [at, length] = this.put(program.text);
        const status = this.call('page_punch', at, length, program.small ? 1 : 0, 'paper', 'note', 'lengths');
        return this.told(status, 'paper');
    }

    // The items of a tape up to its entry, or up to its fault: the rows of each, and the word that it places.
    items(program) {
        const text = program.kind === 'source' ? new TextDecoder().decode(this.punched(program).out) : program.text;
        const [at, length] = this.put(text);
        const status = program.kind === 'tape1' ? this.call('page_items1', at, length, 'items', 'note', 'lengths')
            : this.call('page_items', at, length, program.small ? 1 : 0, 'items', 'note', 'lengths');
        const isTold = status === 0 || status === 3;
        const count = isTold ? Number(this.numbers('lengths', BigUint64Array)[0]) / 16 : 0;
        const numbers = this.numbers('items', Uint32Array, 4 * count);
        const items = Array.from({ length: count }, (_, k) => {
            const [first, after, location, word] = numbers.subarray(4 * k, 4 * k + 4);
            return { first, after, location: location < NO_LOCATION ? location : undefined, word };
        });
        return { status, items, note: isTold ? this.text('note', Number(this.numbers('lengths', BigUint64Array)[1])) : '' };
    }

    // What a word means as an order: its letter, which is none for no order, the location that it names, and its shift.
    meaning(word, small) {
        const key = 2 * word + (small ? 1 : 0);
        if (!this.meanings.has(key)) {
            this.call('page_meaning', word, small ? 1 : 0, 'meaning');
            const [letter, names, location, pair, long, shift] = this.numbers('meaning', Uint32Array);
            const [number] = this.numbers('meaning', Int32Array).subarray(6);
            this.meanings.set(key, {
                letter: letter ? String.fromCharCode(letter) : '', location, pair, shift, number,
                named: names ? location : undefined, isLong: long === 1,
            });
        }
        return this.meanings.get(key);
    }

    // The letter or sign of a code.
    letter(code) {
        return String.fromCharCode(this.call('page_letter', code));
    }

    // What a code prints after the last code that set a shift, if one did.
    sign(shift, code) {
        const codes = Uint8Array.from(shift === null ? [code] : [shift, code]);
        const key = codes.join();
        if (!this.signs.has(key)) {
            this.signs.set(key, this.paper({ codes }, codes.length - 1, codes.length).trim());
        }
        return this.signs.get(key);
    }

    // The text of an order word.
    order(word) {
        if (!this.orders.has(word)) {
            this.orders.set(word, this.text('order', Number(this.call('page_order', word, 'order'))));
        }
        return this.orders.get(word);
    }

    // The machine this many orders after Start, or at the end of its run if that came first.
    picture(program, limit, resumes = 0) {
        const [at, length] = this.put(program.text);
        const name = { source: 'page_source', tape: 'page_tape', tape1: 'page_tape1' }[program.kind];
        const size = program.kind === 'tape1' ? [] : [program.small ? 1 : 0]; // May 1949 has only the full store
        const status = this.call(name, at, length, ...size, limit, resumes, 'words', 'digits', 'paper', 'note', 'registers');
        if (status === 10 || status === 12) {
            return { status, ending: ENDINGS[status], note: '' };
        }
        const shown = this.state(status);
        const note = this.text('note', shown.noted);
        if (status === 3 || status === 11) {
            return { status, ending: ENDINGS[status], note };
        }
        return { ...shown, note, paper: this.text('paper', shown.printed) };
    }

    // What a call wrote of the machine's state.
    state(status) {
        const [accLow, accHigh, multiplier, orders, rowsLeft, counter, last, printed, noted] = this.numbers('registers', BigUint64Array);
        return {
            status, ending: ENDINGS[status],
            registers: this.numbers('registers', BigUint64Array).slice(),
            words: this.numbers('words', Uint32Array).slice(),
            digits: this.bytes('digits', 512).slice(),
            acc: (accHigh << 36n) | accLow,
            multiplier,
            orders: Number(orders),
            rowsLeft: Number(rowsLeft),
            counter: Number(counter),
            last: Number(last),
            printed: Number(printed),
            noted: Number(noted),
        };
    }

    // Writes the rows of a way for the next call.
    mount(way) {
        if (this.mounted !== way.rows) {
            this.bytes('tape', way.rows.length).set(way.rows);
            this.mounted = way.rows;
        }
    }

    // Writes a picture for the next call, as a call wrote it.
    putPicture(shown) {
        this.numbers('words', Uint32Array).set(shown.words);
        this.bytes('digits', 512).set(shown.digits);
        this.numbers('registers', BigUint64Array).set(shown.registers);
    }

    // The machine a number of orders after a picture on the way of a tape, or where its run ended before. The words,
    // digits and registers are handed back as a call wrote them, and the new codes follow those before.
    goOn(way, from, orders, resumes = 0) {
        this.mount(way);
        this.putPicture(from);
        const { at, items } = this.rooms.codes;
        const status = this.call('page_go_on', this.rooms.tape.at, BigInt(way.rows.length), way.small ? 1 : 0, orders, resumes,
            'words', 'digits', at, items - BigInt(from.printed), 'registers');
        if (status === 10 || status === 12) {
            return { status, ending: ENDINGS[status], note: '' };
        }
        const shown = this.state(status);
        way.codes.set(this.bytes('codes', shown.printed), from.printed);
        return Object.assign(shown, { note: '', way, printed: from.printed + shown.printed });
    }

    // What a post-mortem of `count` locations prints of a picture, after what was printed before.
    postMortem(way, shown, first, count) {
        this.mount(way);
        this.putPicture(shown);
        const { at, items } = this.rooms.codes;
        const [before, room] = [BigInt(shown.printed), items - BigInt(shown.printed)];
        this.bytes('codes', shown.printed).set(way.codes.subarray(0, shown.printed));
        const status = this.call('page_post_mortem', this.rooms.tape.at, BigInt(way.rows.length), way.small ? 1 : 0,
            Math.min(first, HIGHEST), Math.min(count, HIGHEST), 'words', 'digits', 'registers', at + before, room, 'lengths');
        const printed = BigInt(status === 0 ? this.numbers('lengths', BigUint64Array)[0] : 0);
        const isRead = status === 0 && this.call('page_paper', at, before, at + before, printed, 'paper', 'lengths') === 0;
        return { status, ending: ENDINGS[status], text: isRead ? this.text('paper', Number(this.numbers('lengths', BigUint64Array)[0])) : '' };
    }

    // The text that the codes of a way from one count to another add to its paper.
    paper(way, from, to) {
        this.bytes('codes', to).set(way.codes.subarray(0, to));
        const { at } = this.rooms.codes;
        const status = this.call('page_paper', at, BigInt(from), at + BigInt(from), BigInt(to - from), 'paper', 'lengths');
        return status === 0 ? this.text('paper', Number(this.numbers('lengths', BigUint64Array)[0])) : '';
    }
}

if (typeof module !== 'undefined') {
    module.exports = { Machine, NO_CODE, hasWideMemories };
}
