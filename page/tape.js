'use strict';
// The holes of a row as they were punched. The top hole is inverted: blank tape, the code 16, has no hole, and erase,
// the code 15, has five.
const punchedOf = (code) => code ^ 16;

// The tape under its reader: five tracks, and the sprocket's holes between the third and the fourth; below them what each
// row says, with pencil lines between the items. It glides to its next row.
const GLIDE = 450; // milliseconds
const TAPE = {
    high: 94, pitch: 22, top: 6, bottom: 91, tracks: [15, 26.5, 38, 55, 66.5], sprocket: 46.5, hole: 4.5, small: 1.6, said: 86,
};

class TapeView {
    constructor(canvas) {
        Object.assign(this, { canvas, at: 0, rows: undefined });
    }

    // `lit` are the first row that was read last, and the one after it.
    draw(rows, rowsLeft, labels, items, lit, isGliding) {
        const to = rows.length - rowsLeft, from = this.at;
        const isOther = this.rows !== rows;
        Object.assign(this, { rows, labels, to, lit, ends: new Set(items.map(({ after }) => after)) });
        cancelAnimationFrame(this.frame);
        if (isOther || !isGliding || to === from) {
            this.paint(to);
            return;
        }
        const since = performance.now();
        const glide = (now) => {
            const part = Math.min(1, Math.max(0, now - since) / GLIDE);
            this.paint(from + (to - from) * part * part * (3 - 2 * part));
            this.frame = part < 1 ? requestAnimationFrame(glide) : undefined;
        };
        glide(since);
    }

    clear() {
        this.rows = undefined;
        this.canvas.getContext('2d').clearRect(0, 0, this.canvas.width, this.canvas.height);
    }

    wide() {
        return measure('tape', () => this.canvas.clientWidth);
    }

    // Where the reader is: a share of the width.
    reader() {
        return Math.floor(this.wide() * 0.3);
    }

    // The box of some rows in the window, where they are when the tape has come to rest.
    boxOf(first, last) {
        const unit = letterHigh() / 20, box = this.canvas.getBoundingClientRect();
        const left = box.left + this.reader() + (first - this.to) * TAPE.pitch * unit;
        const wide = (last - first + 1) * TAPE.pitch * unit;
        return { left, top: box.top + TAPE.top * unit, width: wide, height: (TAPE.bottom - TAPE.top) * unit };
    }

    // The tape with a row, or a part of one, under the reader.
    paint(at) {
        this.at = at;
        const unit = letterHigh() / 20;
        const { rows, labels } = this;
        const wide = this.wide(), pitch = TAPE.pitch * unit;
        const { context } = fitted(this.canvas, wide, TAPE.high * unit);
        const leftOf = (row) => this.reader() + (row - at) * pitch;
        context.clearRect(0, 0, wide, TAPE.high * unit);
        const fill = (first, last, colour) => {
            context.fillStyle = colour;
            context.fillRect(leftOf(first), TAPE.top * unit, (last - first) * pitch, (TAPE.bottom - TAPE.top) * unit);
        };
        fill(-2, rows.length + 2, COLOURS.paper);
        fill(this.lit[0], this.lit[1], COLOURS.read);
        const reached = Math.floor(at + 0.5);
        if (reached < rows.length) {
            fill(at, at + 1, COLOURS.mark);
        }
        context.textAlign = 'center';
        context.font = `bold ${19 * unit}px "DejaVu Sans Mono", Consolas, monospace`;
        const first = Math.max(0, Math.floor(at - this.reader() / pitch)), last = Math.min(rows.length, at + wide / pitch);
        for (let row = first; row < last; row++) {
            this.paintRow(context, unit, leftOf(row), row, row < reached);
        }
        this.paintReader(context, unit);
    }

    paintRow(context, unit, x, row, isRead) {
        const middle = x + (TAPE.pitch / 2) * unit;
        const hole = (y, size) => {
            context.beginPath();
            context.arc(middle, y * unit, size * unit, 0, 7);
            context.fill();
        };
        context.fillStyle = COLOURS.ink;
        TAPE.tracks.forEach((y, track) => {
            if ((punchedOf(this.rows[row]) >> (4 - track)) & 1) {
                hole(y, TAPE.hole);
            }
        });
        hole(TAPE.sprocket, TAPE.small);
        context.fillStyle = isRead && row < this.lit[0] ? COLOURS.old : COLOURS.ink;
        context.fillText(this.labels[row], middle, TAPE.said * unit);
        if (this.ends.has(row + 1)) {
            context.fillRect(x + TAPE.pitch * unit - 0.5, 71 * unit, 1, 18 * unit);
        }
    }

    // The reader: a clamp about the row that is read next.
    paintReader(context, unit) {
        const x = this.reader(), wide = TAPE.pitch * unit;
        context.fillStyle = COLOURS.brass;
        context.fillRect(x - 5 * unit, 0, wide + 10 * unit, TAPE.top * unit);
        context.fillRect(x - 5 * unit, 0, 5 * unit, TAPE.high * unit);
        context.fillRect(x + wide, 0, 5 * unit, TAPE.high * unit);
    }
}

// The rows that were read last: the first one, and the one after them.
function readNow() {
    const { before, shown, rows } = page;
    return [isFast() || !isBeside() ? shown : before, shown].map(({ rowsLeft }) => rows.length - rowsLeft);
}

if (typeof module !== 'undefined') {
    module.exports = { punchedOf };
}
