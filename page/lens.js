'use strict';
// The lens: the words of the store near the one that matters, in large type. Each row has the location, the digits as
// lamps, the order, and in few words what it does or is. A long word that an order uses takes the rows of its two places.
const FEWEST_ROWS = 5, MOST_ROWS = 20;
const RESTS = 400; // milliseconds that the lens stays where it is while the machine runs fast
const SLIDE = 250; // milliseconds that the rows slide
const APPEARS = 120; // milliseconds from one row to the next when the loader appears

// The first place of the lens: it moves only if the place in focus would leave it.
function lensFirst(first, focus, rows, places) {
    const isSeen = focus >= first && focus < first + rows - 2;
    return isSeen ? first : Math.max(0, Math.min(focus - 1, places - rows));
}

// The places of the rows: those from the first one on. Others that matter and are far away have the last two rows.
function lensPlaces(first, rows, others) {
    const from = (count) => Array.from({ length: count }, (_, k) => first + k);
    const isIn = (place, count) => place >= first && place < first + count;
    const late = [...new Set(others)].filter((place) => !isIn(place, rows - 2)).slice(0, 2).sort((one, two) => one - two);
    return late.every((place) => isIn(place, rows)) ? from(rows) : [...from(rows - late.length), ...late];
}

// Lamps of this many digits in a part of the page.
function lampsIn(node, count) {
    node.replaceChildren(...Array.from({ length: count }, () => document.createElement('i')));
    node.bits = '';
}

// Lights the lamps; only those that differ are touched.
function light(node, bits) {
    for (let k = 0; bits !== node.bits && k < node.children.length; k++) {
        if (bits[k] !== node.bits[k]) {
            node.children[k].className = bits[k] === '1' ? 'on' : '';
        }
    }
    node.bits = bits;
}

class Lens {
    constructor(table) {
        this.table = table;
        this.first = 0;
        this.moved = -RESTS;
        this.places = [];
        table.createTHead().innerHTML = '<tr><th scope="col" data-say="lookPlace"></th><th aria-hidden="true"></th>'
            + '<th scope="col" data-say="worksheetOrder"></th><th scope="col" data-say="rowMeans"></th></tr>';
        this.body = table.createTBody();
    }

    // As many rows as fit.
    fit() {
        const box = this.table.parentElement;
        const due = parseFloat(getComputedStyle(this.table).getPropertyValue('--row')) * letterHigh();
        const high = Math.max(due, this.body.rows.length ? this.body.rows[0].offsetHeight : 0);
        const rows = Math.max(FEWEST_ROWS, Math.min(Math.floor(box.clientHeight / high + 0.1), MOST_ROWS));
        while (this.body.rows.length > rows) {
            this.body.deleteRow(-1);
        }
        while (this.body.rows.length < rows) {
            const row = this.body.insertRow();
            row.innerHTML = '<th scope="row"><button></button></th><td class="lamps" aria-hidden="true"></td>'
                + '<td class="spelled"></td><td class="brief"></td>';
            lampsIn(row.cells[1], 17);
        }
        return rows;
    }

    // Draws the rows about a place. `others` must be seen too, `said` tells what is in a place, `saidLong` what is in one of
    // the `pairs`, and `isFast` keeps the lens at rest.
    draw({ focus, found, others, pairs, counter, done, named, places, isFast, said, saidLong }) {
        const rows = this.body.rows.length || this.fit();
        const now = performance.now();
        const first = lensFirst(this.first, focus, rows, places);
        if (first !== this.first && !(isFast && now - this.moved < RESTS)) {
            this.slide(isFast ? 0 : first - this.first);
            this.first = first;
            this.moved = now;
        }
        this.first = Math.max(0, Math.min(this.first, places - rows));
        this.places = lensPlaces(this.first, rows, isFast ? [] : others);
        const isPair = (k) => pairs.includes(this.places[k]) && this.places[k + 1] === this.places[k] + 1;
        this.places.forEach((place, k) => {
            const [isTop, isUnder] = [isPair(k), k > 0 && isPair(k - 1)];
            const pair = isUnder ? place - 1 : place;
            const is = isTop || isUnder ? { ...saidLong(pair), isTop, isUnder } : said(place);
            const isAt = (one) => one === place || (is.number !== undefined && one === pair);
            const isFar = k > 0 && place !== this.places[k - 1] + 1;
            const marks = { new: is.isNew, idle: is.isIdle, here: counter === place, done: done === place, named: isAt(named),
                found: found === place, far: isFar, top: isTop, under: isUnder };
            const name = Object.keys(marks).filter((mark) => marks[mark]).join(' ');
            this.write(this.body.rows[k], place, is, name);
        });
    }

    // Writes a row, if it has become different.
    write(row, place, is, name) {
        this.form(row, is);
        if (!is.isUnder) {
            light(row.cells[1], is.bits);
        }
        const brief = is.isUnder ? is.number : is.brief;
        const all = [place, is.word, brief, name, page.words.name].join('\n');
        if (row.all !== all) {
            row.all = all;
            row.cells[0].firstChild.textContent = place;
            this.mark(row, place, name.split(' '));
            row.cells[row.cells.length - 1].textContent = brief;
            row.className = name;
            if (row.cells.length > 3) {
                row.cells[2].textContent = is.word;
            }
            if (is.isUnder) {
                [...row.cells[1].children].forEach((node, k) => { node.textContent = [place, '', place - 1][k]; });
            }
        }
    }

    // A row of one word, or the upper or the lower row of a long one: its 35 lamps, and the places of its halves below them.
    form(row, { isTop = false, isUnder = false }) {
        const form = isTop ? 'top' : isUnder ? 'under' : 'one';
        if ((row.form || 'one') === form) {
            return;
        }
        row.form = form;
        row.all = undefined;
        while (row.cells.length > 3) {
            row.deleteCell(2);
        }
        row.cells[1].colSpan = form === 'one' ? 1 : 2;
        lampsIn(row.cells[1], { top: 35, under: 3, one: 17 }[form]);
        if (form === 'one') {
            row.insertCell(2).className = 'spelled';
        }
    }

    // What the marks of a row show to the eye, said of its place.
    mark(row, place, marks) {
        const said = marks.filter((mark) => page.words.has(`marks.${mark}`)).map((mark) => page.words.say(`marks.${mark}`));
        row.cells[0].firstChild.setAttribute('aria-label', [place, ...said].join(', '));
        row.toggleAttribute('aria-current', marks.includes('here'));
    }

    // The rows slide to their new places.
    slide(by) {
        if (by !== 0 && Math.abs(by) < this.body.rows.length && isMoving()) {
            const high = this.body.rows[0].offsetHeight;
            const frames = [{ transform: `translateY(${by * high}px)` }, { transform: 'none' }];
            this.body.animate(frames, { duration: SLIDE, easing: 'ease-out' });
        }
    }

    clear() {
        this.places = [];
        this.body.replaceChildren();
    }

    // The rows appear one after the other.
    appear() {
        if (isMoving()) {
            [...this.body.rows].forEach((row, k) => {
                row.animate([{ opacity: 0 }, { opacity: 1 }], { delay: APPEARS * k, duration: 300, fill: 'backwards' });
            });
        }
    }

    // The box of a row's cell in the window, where it is once the rows have come to rest.
    boxOf(row, cell) {
        const box = row.cells[Math.min(cell, row.cells.length - 1)].getBoundingClientRect();
        const slid = this.body.getBoundingClientRect().top - this.table.parentElement.getBoundingClientRect().top;
        return { left: box.left, top: box.top - slid, width: box.width, height: box.height };
    }

    rowOf(place) {
        const at = this.places.indexOf(place);
        return at < 0 ? undefined : this.body.rows[at];
    }
}

if (typeof module !== 'undefined') {
    module.exports = { lensFirst, lensPlaces };
}
