'use strict';
// The way of a tape from Start: the machine after any number of orders. It starts from the nearest picture that was
// kept, so moving far costs only the orders in between, and moving back a little costs little wherever the machine is.
const KEPT_EACH = 1 << 18; // orders from one picture that is kept to the next

class Way {
    constructor(machine, program, rows) {
        Object.assign(this, { machine, rows, kind: program.kind, small: program.small });
        this.codes = new Uint8Array(Number(machine.rooms.codes.items)); // those printed so far
        this.kept = []; // the picture after each multiple of KEPT_EACH orders, as far as the machine came
        this.stops = new Set(); // the numbers of orders after which the machine was seen to stop
        this.first = Object.assign(machine.picture(program, 0), { way: this, printed: 0 });
        if (this.first.words) {
            this.kept.push(this.first);
        }
    }

    // The machine after a count of orders, or where its run ended before; each stop that was seen before it is passed.
    // A picture that is near makes this faster.
    at(orders, near) {
        let shown = this.nearest(orders, near);
        while (shown.words && shown.orders < orders && this.goesOn(shown)) {
            shown = this.after(shown, Math.min(orders - shown.orders, this.upToKept(shown)));
        }
        return shown;
    }

    // A piece of the way, with the stops that were seen on it.
    after(from, orders) {
        const to = from.orders + orders;
        const passed = [...this.stops].filter((stop) => from.orders < stop && stop < to).length;
        return this.keep(this.machine.goOn(this, from, orders, passed));
    }

    // Keeps a picture, if it is due, and gives it back.
    keep(shown) {
        if (shown.words && shown.orders === KEPT_EACH * this.kept.length) {
            this.kept.push(shown);
        }
        return shown;
    }

    // The orders from a picture up to the next one that is kept.
    upToKept(shown) {
        return (Math.floor(shown.orders / KEPT_EACH) + 1) * KEPT_EACH - shown.orders;
    }

    goesOn(shown) {
        return shown.ending === 'limit' || (shown.ending === 'stopped' && this.stops.has(shown.orders));
    }

    // The last picture that is known and not past a count of orders.
    nearest(orders, near) {
        const kept = this.kept[Math.min(Math.floor(orders / KEPT_EACH), this.kept.length - 1)] || this.first;
        return near && near.way === this && near.orders <= orders && near.orders >= kept.orders ? near : kept;
    }

    // The text that the codes from one count to another add to the paper.
    text(from, to) {
        return this.machine.paper(this, from, to);
    }
}

if (typeof module !== 'undefined') {
    module.exports = { Way, KEPT_EACH };
}
