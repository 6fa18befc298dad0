'use strict';
// The story of a faulty tape: up to its faulty row the machine does what the tape means. Which row that is says the
// machine's check of the tape; what becomes of it, the machine's pictures.
const PLACES = { made: 20, stores: 22 }; // of the loader: the order that it makes of a row, and the one that stores a word

// The row at which a tape breaks the notation, counted from 0; undefined if it doesn't.
const faultyRow = () => {
    const found = page.machine.items(page.program).note.match(/^row (\d+):/);
    return found ? Number(found[1]) : undefined;
};

class FaultTour extends Tour {
    constructor(story) {
        super(story);
        this.row = faultyRow();
        this.parts = [this.tellAim, this.tellLoader, this.tellSound, this.tellParting, this.tellCheck];
    }

    // The items before the fault, as they are meant.
    async tellSound() {
        while (this.isReading() && page.items.some(({ first }) => first === page.rows.length - page.shown.rowsLeft)) {
            if (!(await this.tellItem(4.5))) {
                return;
            }
        }
        await this.tell(5, 'fault.before', { row: this.row + 1 });
    }

    // The row of the fault, order by order, and what becomes of it.
    async tellParting() {
        const isRead = ({ rowsLeft }) => page.rows.length - rowsLeft > this.row;
        let told = 0; // of the moments
        const moments = [
            ['fault.read', () => isRead(page.shown)],
            ['fault.made', () => isRead(page.shown) && page.shown.counter === PLACES.made],
            ['fault.lost', () => page.shown.words[PLACES.stores] === 0],
        ];
        while (page.shown.ending === 'limit') {
            this.isQuick = told === 0 || told === moments.length;
            show(pictureAt(page.shown.orders + 1, page.shown), page.shown);
            const [key, isNow] = moments[told] || ['', () => false];
            if (isNow()) {
                told++;
                const [order, meant] = [page.shown.words[PLACES.made], page.shown.words[PLACES.made] - 2].map(orderText);
                if (!(await this.tell(8, key, { row: this.row + 1, order, meant, place: PLACES.stores }))) {
                    return;
                }
            } else if (!(await this.wait(this.isQuick ? 0.16 : 0.8))) {
                return;
            }
        }
        this.isQuick = false;
        await this.tell(8, 'fault.still', { place: page.shown.counter });
    }

    async tellCheck() {
        const { note } = page.machine.items(page.program);
        await this.tell(9, 'fault.check', { note: note.trim(), row: this.row + 1 });
    }
}
