'use strict';
// How a story is told: why it matters, what its tape is to do, how it fills the store, how its program works, what of it
// is proved, and an end that invites. What is shown comes from the machine's pictures.
const WAITS = { tape: 34, source: 34, tape1: 7 }; // the place of the loader's order that reads the first row of an item
const ITEMS = 8, ORDERS = 9; // how many are shown one by one
const PREPARES = 12; // orders of the loader before its first item that are shown one by one
const WATCHED = 60; // orders of the loader for an item, at most, that are shown one by one
const LONGEST_ITEM = 2000; // orders: a loader that a tape has sent round in circles reads no item

class Tour {
    constructor(story) {
        this.story = story;
        this.parts = [this.tellAim, this.tellLoader, this.tellTape, this.tellProgram, this.tellProof];
        this.isOver = false;
        this.waited = 0; // seconds, as they are planned
        this.said = undefined; // the key of the sentence that is shown
        this.isUnstarted = true; // nobody has pressed Start yet
        this.item = undefined; // of the tape, while it is told of
        this.place = undefined; // the place that the item is about
        this.hasWatched = false; // whether an item was shown order by order
        this.watched = undefined; // the first row of that item, until the next one
        this.isQuick = false; // whether orders pass too fast for anything to be seen to move
        this.isFast = false; // whether orders pass too fast to be followed
    }

    // Waits; false if a button ended the story. Skip ends the waiting and all further ones of the part.
    async wait(seconds) {
        if (!this.skips && !this.isOver) {
            this.waited += seconds;
            await new Promise((done) => {
                this.wake = done;
                setTimeout(done, seconds * 1000 * (page.hurry || 1));
            });
        }
        return !this.isOver;
    }

    skip() {
        this.skips = true;
        if (this.wake) {
            this.wake();
        }
    }

    end() {
        this.isOver = true;
        this.skip();
    }

    // Shows a sentence for a while. Its values are a function where they are words of a language.
    async tell(seconds, key, values = {}) {
        if (this.isOver) {
            return false;
        }
        if (!this.skips) {
            this.say(key, values);
        }
        return this.wait(seconds);
    }

    say(key, values = {}) {
        this.said = key;
        sayAt('story', () => page.words.say(key, typeof values === 'function' ? values() : values));
    }

    // All of the story; true if it reached its end.
    async run() {
        for (const part of this.parts) {
            this.skips = false;
            await part.call(this);
            if (this.isOver) {
                return false;
            }
        }
        this.skips = false;
        this.say({ stopped: 'told.end', limit: 'told.endless' }[page.shown.ending] || 'told.still');
        return true;
    }

    async tellAim() {
        if (this.story.isFirst && !(await this.tell(10, 'told.why'))) {
            return;
        }
        await this.tell(6, `aim.${this.story.name}`, { name: printable(by('name').value) });
        this.isUnstarted = false;
        drawButtons();
    }

    // The loader's own first orders.
    async tellLoader() {
        lens.appear();
        if (!(await this.tell(6, page.program.kind === 'tape1' ? 'told.loader1' : 'told.loader'))) {
            return;
        }
        const ready = this.toNextItem(page.shown);
        while (page.shown.orders < ready.orders && ready.orders <= PREPARES) {
            show(pictureAt(page.shown.orders + 1, page.shown), page.shown);
            if (!(await this.tell(0.8, 'told.prepares'))) {
                return;
            }
        }
        show(ready, page.shown);
        await this.tell(3, 'told.ready');
    }

    // The picture in which the loader waits for its next item, or has ended.
    toNextItem(from) {
        const { kind } = page.program;
        const isBusy = ({ ending, counter }) => ending === 'limit' && counter < placesOf(kind) && counter !== WAITS[kind];
        let shown = from;
        do {
            shown = pictureAt(shown.orders + 1, shown);
        } while (isBusy(shown) && shown.orders < from.orders + LONGEST_ITEM);
        return shown;
    }

    // Each item as it lands: the first ones slowly, the others in a few seconds.
    async tellTape() {
        for (let item = 0; item < ITEMS && this.isReading(); item++) {
            if (!(await this.tellItem(item < 4 ? 4 : 3.5))) {
                return;
            }
        }
        if (page.shown.ending === 'limit') {
            await this.readOn('told.on', {});
        }
    }

    // The next item: the first one that becomes something else is shown order by order too.
    async tellItem(seconds) {
        const from = page.shown, to = this.toNextItem(from);
        const item = itemBetween(from, to);
        this.watched = undefined;
        if (to.ending !== 'limit') {
            show(to, from);
            return true; // the tape has ended, or the loader stands still
        }
        const [key, values] = itemSaid(from, to);
        if (key === 'told.landed' && !this.hasWatched && !(await this.watch(from, to, item))) {
            return false;
        }
        Object.assign(this, { item, place: placeOfItem(from, to) });
        show(to, from);
        if (this.watched !== undefined) { // its parts are still to be seen
            await this.tell(seconds, key, () => ({ ...values(), later: '' }));
            this.watched = undefined;
            draw(); // without the parts and the trail
        }
        const goesOn = await this.tell(seconds, key, values);
        this.item = this.place = this.watched = undefined;
        return goesOn;
    }

    // The rest of the tape, in a few seconds.
    async readOn(key, values) {
        this.isFast = true;
        const entry = entryAfter(page.shown.orders);
        for (let k = 1, from = page.shown.orders; k <= 24 && page.shown.orders < entry; k++) {
            if (!(await this.tell(0.2, key, values))) {
                return;
            }
            show(pictureAt(Math.round(from + ((entry - from) * k) / 24), page.shown), page.shown);
        }
        this.isFast = false;
        if (page.shown.ending === 'limit') {
            await this.tell(4, 'told.program');
        }
    }

    // The loader's orders that read one item, one by one; then the item is shown on its way as a whole.
    async watch(from, to, item) {
        this.hasWatched = this.isQuick = true;
        this.watched = page.rows.length - from.rowsLeft;
        while (page.shown.orders < to.orders && to.orders < from.orders + WATCHED) {
            show(pictureAt(page.shown.orders + 1, page.shown), page.shown);
            if (!(await this.tell(0.16, 'told.reads', { item, count: to.orders - from.orders }))) {
                return false;
            }
        }
        this.isQuick = false;
        page.shown = from;
        return true;
    }

    isReading() {
        return page.shown.ending === 'limit' && page.shown.counter < placesOf(page.program.kind);
    }

    // The first orders slowly, the others in time.
    async tellProgram() {
        for (let order = 0; order < ORDERS && page.shown.ending === 'limit'; order++) {
            const from = page.shown;
            show(pictureAt(from.orders + 1, from), from);
            if (page.shown.orders === from.orders || !(await this.tell(order < 5 ? 3.5 : 2.5, ...orderSaid(from, page.shown)))) {
                return; // no order was obeyed, or the story was ended
            }
        }
        if (page.shown.ending === 'limit') {
            await this.runOn();
        }
    }

    // The rest of the program, up to its end, in at most 18 seconds, and in 6 if it has that many orders.
    async runOn() {
        this.isFast = true;
        const end = pictureAt(TRIED, page.shown);
        const { orders: from, printed } = page.shown, left = end.orders - from;
        const frames = Math.min(180, Math.max(1, Math.ceil(left / 65), Math.min(left, 60)));
        for (let k = 1; k < frames; k++) {
            if (!(await this.tell(0.1, 'told.fast'))) {
                return;
            }
            show(pictureAt(from + Math.round((left * k) / frames), page.shown), page.shown);
        }
        this.isFast = false;
        show(end, page.shown);
        speakPrinted(printed);
    }

    // What is proved of the program for all its data, as docs/PROGRAMS.md has it.
    async tellProof() {
        const { name, isProved } = this.story;
        for (const key of [`proved.${name}`, `proof.${name}`]) {
            if (isProved && page.words.has(key)) {
                await this.tell(7, key);
            }
        }
    }
}

// The story of a letter, a name or a copy that a visitor has made: it passes over the tape, with a sentence of its own.
class ShortTour extends Tour {
    constructor(story, { key, values }) {
        super(story);
        this.isUnstarted = false;
        this.parts = [() => this.readOn(key, values), this.tellProgram];
    }
}
