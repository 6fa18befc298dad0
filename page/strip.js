'use strict';
// A tape as a picture at its true size: rows a tenth of an inch apart on tape of 11/16 inch, with what each row spells,
// a title, and marks to cut along. One unit is a hundredth of an inch.
const STRIP = {
    pitch: 10, wide: 68.75, rows: 70, margin: 10, title: 14, text: 14, gap: 16,
    tracks: [9.4, 19.4, 29.4, 49.4, 59.4], sprocket: 39.4, hole: 3.6, small: 2.3,
    titleSize: 11, saysSize: 6, letter: 0.62,
};

const MARKS = { '&': '&amp;', '<': '&lt;', '>': '&gt;', '"': '&quot;' };
const escaped = (text) => text.replace(/[&<>"]/g, (mark) => MARKS[mark]);

// A text at a place of the picture.
const lettered = (name, x, y, text, more = '') => `<text class="${name}" x="${x}" y="${y}"${more}>${escaped(text)}</text>`;

// How wide a text is, in letters of one width.
const widthOf = (text, size) => [...text].length * size * STRIP.letter;

// The marks to cut along: the four sides of a piece, each a little longer than it.
function cutsOf(left, right, top) {
    const bottom = top + STRIP.wide;
    const sides = `M${left - 6} ${top}H${right + 6}M${left - 6} ${bottom}H${right + 6}`
        + `M${left} ${top - 6}V${bottom + 6}M${right} ${top - 6}V${bottom + 6}`;
    return `<path class="cut" fill="none" stroke="black" stroke-width="0.5" stroke-dasharray="3 2" d="${sides}"/>`;
}

// One piece of the tape: as many rows as fit on a sheet, from a row on.
function pieceOf(rows, labels, punched, first, top) {
    const count = Math.min(STRIP.rows, rows.length - first);
    const circle = (name, x, y, size) => `<circle class="${name}" cx="${x}" cy="${(top + y).toFixed(2)}" r="${size}"/>`;
    const parts = [cutsOf(STRIP.margin, STRIP.margin + count * STRIP.pitch, top)];
    for (let k = 0; k < count; k++) {
        const x = STRIP.margin + (k + 0.5) * STRIP.pitch;
        parts.push(circle('sprocket', x, STRIP.sprocket, STRIP.small));
        STRIP.tracks.forEach((y, track) => {
            if ((punched(rows[first + k]) >> (4 - track)) & 1) {
                parts.push(circle('hole', x, y, STRIP.hole));
            }
        });
        parts.push(lettered('sign', x, top + STRIP.wide + STRIP.text - 3, labels[first + k]));
    }
    return parts.join('');
}

// The whole tape, cut into pieces that fit on a sheet of A4 or Letter.
function stripOf(rows, labels, punched, title, says) {
    const pieces = Math.max(1, Math.ceil(rows.length / STRIP.rows));
    const drawnWide = Math.min(STRIP.rows, Math.max(1, rows.length)) * STRIP.pitch;
    const wide = Math.ceil(2 * STRIP.margin + Math.max(drawnWide, widthOf(title, STRIP.titleSize), widthOf(says, STRIP.saysSize)));
    const each = STRIP.wide + STRIP.text + STRIP.gap;
    const head = STRIP.margin + 2 * STRIP.title;
    const high = (head + pieces * each + STRIP.margin).toFixed(2);
    const topOf = (piece) => head + piece * each + 6;
    const drawn = Array.from({ length: pieces }, (_, k) => pieceOf(rows, labels, punched, k * STRIP.rows, topOf(k)));
    const line = STRIP.margin + 6;
    return `<svg xmlns="http://www.w3.org/2000/svg" role="img" width="${wide / 100}in" height="${(high / 100).toFixed(4)}in" `
        + `viewBox="0 0 ${wide} ${high}"><title>${escaped(title)}</title>`
        + '<g font-family="monospace" font-size="9" text-anchor="middle" fill="black">'
        + lettered('title', STRIP.margin, line, title, ` text-anchor="start" font-size="${STRIP.titleSize}"`)
        + lettered('says', STRIP.margin, line + STRIP.title, says, ` text-anchor="start" font-size="${STRIP.saysSize}"`)
        + `${drawn.join('')}</g></svg>`;
}

if (typeof module !== 'undefined') {
    module.exports = { STRIP, stripOf, escaped };
}
