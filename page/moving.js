'use strict';
// Makes the short moving picture of the README: some seconds of the first story, as an APNG of pictures of Chromium.
//   node page/moving.js BROWSER PAGE.html FILE.png
// Chromium's pictures are PNG files. Each becomes a frame: the part that differs from the frame before.
const fs = require('fs');
const zlib = require('zlib');
const { Visitor } = require('./visitor.js');

const [command, file, target] = process.argv.slice(2);
const [WIDE, HIGH] = [960, 544]; // pixels, the smallest screen on which the whole machine is seen
const EACH = 120; // milliseconds of a frame
const LAST = 5000; // milliseconds of the last one
const PLAYS = 3; // how often it is played
const COLOURS = 200; // of the picture: a frame is stored by their numbers

// The bytes of the picture in a PNG file, three or four a pixel, without the filters of its rows.
function pixelsOf(png) {
    const parts = [];
    let kind = 0;
    for (let at = 8; at < png.length;) {
        const [length, name] = [png.readUInt32BE(at), png.toString('latin1', at + 4, at + 8)];
        if (name === 'IHDR') {
            kind = png[at + 17];
        } else if (name === 'IDAT') {
            parts.push(png.subarray(at + 8, at + 8 + length));
        }
        at += 12 + length;
    }
    const size = kind === 6 ? 4 : 3, wide = WIDE * size;
    return { size, bytes: unfiltered(zlib.inflateSync(Buffer.concat(parts)), wide, size) };
}

// Rows without their filters, as the standard of PNG has it.
function unfiltered(rows, wide, size) {
    const bytes = Buffer.alloc(wide * HIGH);
    for (let y = 0; y < HIGH; y++) {
        const filter = rows[y * (wide + 1)];
        for (let x = 0; x < wide; x++) {
            const left = x >= size ? bytes[y * wide + x - size] : 0;
            const up = y > 0 ? bytes[(y - 1) * wide + x] : 0;
            const corner = x >= size && y > 0 ? bytes[(y - 1) * wide + x - size] : 0;
            const add = [0, left, up, (left + up) >> 1, nearest(left, up, corner)][filter];
            bytes[y * wide + x] = rows[y * (wide + 1) + 1 + x] + add;
        }
    }
    return bytes;
}

// What of the three is nearest to left + up - corner.
function nearest(left, up, corner) {
    const [a, b, c] = [Math.abs(up - corner), Math.abs(left - corner), Math.abs(left + up - 2 * corner)];
    return a <= b && a <= c ? left : b <= c ? up : corner;
}

// The colours that occur most, and the number of the nearest one to each colour.
function paletteOf(pictures) {
    const counts = new Map();
    for (const { size, bytes } of pictures) {
        for (let at = 0; at < bytes.length; at += size) {
            const colour = bytes.readUIntBE(at, 3);
            counts.set(colour, (counts.get(colour) || 0) + 1);
        }
    }
    const most = [...counts].sort((one, two) => two[1] - one[1]).slice(0, COLOURS).map(([colour]) => colour);
    const apart = (one, two) => [16, 8, 0].reduce((sum, by) => sum + (((one >> by) & 255) - ((two >> by) & 255)) ** 2, 0);
    const numbers = new Map();
    const numberOf = (colour) => {
        if (!numbers.has(colour)) {
            numbers.set(colour, most.reduce((best, one, k) => (apart(one, colour) < apart(most[best], colour) ? k : best), 0));
        }
        return numbers.get(colour);
    };
    return { most, numberOf };
}

// A part of a PNG file, with its checksum.
function chunk(name, data) {
    const body = Buffer.concat([Buffer.from(name, 'latin1'), data]);
    const sum = Buffer.alloc(4), length = Buffer.alloc(4);
    sum.writeUInt32BE(zlib.crc32 ? zlib.crc32(body) : crc(body));
    length.writeUInt32BE(data.length);
    return Buffer.concat([length, body, sum]);
}

function crc(bytes) {
    let sum = 0xffffffff;
    for (const byte of bytes) {
        sum ^= byte;
        for (let k = 0; k < 8; k++) {
            sum = (sum >>> 1) ^ (sum & 1 ? 0xedb88320 : 0);
        }
    }
    return (sum ^ 0xffffffff) >>> 0;
}

const numbersOf = (...all) => Buffer.concat(all.map(([value, size]) => {
    const bytes = Buffer.alloc(size);
    bytes.writeUIntBE(value, 0, size);
    return bytes;
}));

// The part in which a frame differs from the one before.
function changedBox(before, frame) {
    let [left, top, right, bottom] = [WIDE, HIGH, -1, -1];
    for (let at = 0; at < frame.length; at++) {
        if (!before || before[at] !== frame[at]) {
            const [x, y] = [at % WIDE, Math.floor(at / WIDE)];
            [left, top, right, bottom] = [Math.min(left, x), Math.min(top, y), Math.max(right, x), Math.max(bottom, y)];
        }
    }
    return { x: left, y: top, wide: right - left + 1, high: bottom - top + 1 };
}

// The file of frames; each lasts until one that differs from it.
function apngOf(frames, times, palette) {
    const kept = [];
    frames.forEach((frame, k) => {
        const before = kept.length ? kept[kept.length - 1].frame : undefined;
        if (!before || !before.equals(frame)) {
            kept.push({ frame, before, at: times[k] });
        }
    });
    kept.forEach((one, k) => { one.ms = k + 1 < kept.length ? kept[k + 1].at - one.at : LAST; });
    const parts = [Buffer.from('89504e470d0a1a0a', 'hex'), chunk('IHDR', numbersOf([WIDE, 4], [HIGH, 4], [8, 1], [3, 1], [0, 3])),
        chunk('acTL', numbersOf([kept.length, 4], [PLAYS, 4])), chunk('PLTE', numbersOf(...palette.most.map((colour) => [colour, 3])))];
    let count = 0;
    kept.forEach(({ frame, before, ms }, k) => {
        const box = changedBox(before, frame);
        parts.push(chunk('fcTL', numbersOf([count++, 4], [box.wide, 4], [box.high, 4], [box.x, 4], [box.y, 4], [ms, 2], [1000, 2], [0, 2])));
        const rows = Array.from({ length: box.high }, (_, y) => {
            const at = (box.y + y) * WIDE + box.x;
            return Buffer.concat([Buffer.of(0), frame.subarray(at, at + box.wide)]);
        });
        const data = zlib.deflateSync(Buffer.concat(rows), { level: 9 });
        parts.push(k === 0 ? chunk('IDAT', data) : chunk('fdAT', Buffer.concat([numbersOf([count++, 4]), data])));
    });
    return Buffer.concat([...parts, chunk('IEND', Buffer.alloc(0))]);
}

(async () => {
    const b = new Visitor(command, file, '.');
    await b.open('#lang=en', () => b.size(WIDE, HIGH));
    await b.run(() => { document.documentElement.style.overflow = 'hidden'; });
    await b.run(() => printName('A'));
    const pictures = [], times = [];
    for (let isOver = false; !isOver;) {
        isOver = await b.ask('page.tour === undefined');
        const since = Date.now();
        const { data } = await b.send('Page.captureScreenshot', { format: 'png' });
        pictures.push(Buffer.from(data, 'base64'));
        times.push(since);
        await new Promise((done) => { setTimeout(done, Math.max(0, EACH - (Date.now() - since))); });
    }
    await b.close();
    const all = pictures.map(pixelsOf), palette = paletteOf(all);
    const frames = all.map(({ size, bytes }) => (
        Buffer.from(Array.from({ length: WIDE * HIGH }, (_, k) => palette.numberOf(bytes.readUIntBE(k * size, 3))))));
    const made = apngOf(frames, times, palette);
    fs.writeFileSync(target, made);
    console.log(`${target}: ${made.length} bytes`);
    process.exit(0);
})();
