'use strict';
// The whole store as a small map of its dots: tanks of 16 long words, each of 35 dots with the high end at the left. If the
// page is one screen, the dots are as large as their room allows. Each begins at a whole pixel.
class StoreView {
    constructor(canvas, isOneScreen) {
        this.canvas = canvas;
        this.isOneScreen = isOneScreen;
        this.rows = new Map();
        this.frames = [];
        this.tanks = 32;
    }

    plan(tanks) {
        return measure(`map ${tanks}`, () => this.planned(tanks));
    }

    // The corners of the tanks.
    planned(tanks) {
        const box = this.canvas.parentElement;
        const wide = box.clientWidth;
        const scale = window.devicePixelRatio || 1;
        const whole = (length) => Math.max(1, Math.floor(length * scale)) / scale;
        const gap = whole(Math.max(4, wide / 300));
        const sizeOf = (across) => {
            const down = Math.ceil(tanks / across);
            const widest = (wide - gap * (across + 1)) / (35 * across);
            const highest = this.isOneScreen() ? (box.clientHeight - gap * (down + 1)) / (16 * down) : Infinity;
            return { across, down, dot: whole(widest), high: whole(Math.min(Math.max(widest, 2), highest)) };
        };
        const sizes = (wide < 640 ? [4] : [16, 8, 4]).map(sizeOf); // tanks side by side
        const least = ({ dot, high }) => Math.min(dot, high);
        const [{ across, down, dot, high }] = sizes.sort((one, two) => least(two) - least(one));
        const side = whole((wide - 35 * dot * across) / (across + 1)); // between tanks that are side by side
        const [tankWide, tankHigh] = [35 * dot + side, 16 * high + gap];
        return { wide, across, gap, side, dot, high, scale, tankWide, tankHigh, height: down * tankHigh + gap };
    }

    // The order at the counter has a solid frame, the location that it names a broken one, and what is in the lens a light
    // one.
    draw(shown, before, small, named, seen) {
        const tanks = small ? 16 : 32;
        const plan = this.plan(tanks);
        const { context, isNew } = fitted(this.canvas, plan.wide, plan.height);
        if (isNew || this.tanks !== tanks || this.rows.size === 0) {
            this.rows.clear();
            this.frames = [];
            this.tanks = tanks;
            context.clearRect(0, 0, plan.wide, plan.height);
        }
        this.frames.forEach(([first, last]) => this.unframe(context, plan, first, last));
        for (let pair = 0; pair < tanks * 16; pair++) {
            this.drawPair(context, plan, pair, shown, before || shown);
        }
        const spans = spansOf(seen);
        spans.forEach((span) => this.frameLens(context, plan, span));
        const places = [named, shown.counter].filter((place) => place >= 0 && place < tanks * 32);
        places.forEach((place) => this.frame(context, plan, place, place === shown.counter));
        this.frames = [...spans, ...places.map((place) => [place >> 1, place >> 1])];
    }

    // Draws the row of a pair, if it has become different: its three parts, and which of them have changed.
    drawPair(context, plan, pair, shown, before) {
        const [even, odd, middle] = [shown.words[2 * pair], shown.words[2 * pair + 1], shown.digits[pair]];
        const changed = [before.words[2 * pair + 1] !== odd, before.digits[pair] !== middle, before.words[2 * pair] !== even];
        const drawn = this.rows.get(pair);
        const bits = changed.reduce((sum, one) => 2 * sum + Number(one), 0);
        if (!drawn || drawn[0] !== even || drawn[1] !== odd || drawn[2] !== middle || drawn[3] !== bits) {
            this.rows.set(pair, [even, odd, middle, bits]);
            this.drawRow(context, plan, pair, [odd, middle, even], changed);
        }
    }

    // The corner of a pair's row.
    corner(plan, pair) {
        const tank = pair >> 4;
        const [column, row] = [tank % plan.across, Math.floor(tank / plan.across)];
        return [plan.side + column * plan.tankWide, plan.gap + row * plan.tankHigh + (pair & 15) * plan.high];
    }

    // A changed word has a band under it, and its dots fill their room.
    drawRow(context, plan, pair, [odd, middle, even], changed) {
        const [left, y] = this.corner(plan, pair);
        context.clearRect(left - 2, y, 35 * plan.dot + 4, plan.high);
        const bits = binary(odd, 17) + middle + binary(even, 17);
        for (let k = 0; k < 35; k++) {
            const isOn = bits[k] === '1';
            const isNew = changed[k < 17 ? 0 : k === 17 ? 1 : 2];
            if (!isOn && !isNew && plan.dot * plan.scale < 2) {
                continue; // dark dots of a pixel would leave no ground
            }
            if (isNew) {
                context.fillStyle = COLOURS.band;
                context.fillRect(left + k * plan.dot, y, plan.dot, plan.high);
            }
            const share = isOn ? (isNew ? 1 : 0.8) : 0.45;
            const sized = (side) => Math.max(1, Math.round(side * share * plan.scale)) / plan.scale;
            const inner = (side, size) => Math.floor(((side - size) / 2) * plan.scale) / plan.scale;
            const [wide, high] = [sized(plan.dot), sized(plan.high)];
            context.fillStyle = isOn ? (isNew ? COLOURS.lit : COLOURS.dot) : (isNew ? COLOURS.litDark : COLOURS.dark);
            context.fillRect(left + k * plan.dot + inner(plan.dot, wide), y + inner(plan.high, high), wide, high);
        }
    }

    frame(context, plan, place, isCounter) {
        const [left, y] = this.corner(plan, place >> 1);
        context.lineWidth = Math.max(1.5, plan.high / 4);
        context.strokeStyle = isCounter ? COLOURS.counter : COLOURS.named;
        context.setLineDash(isCounter ? [] : [4, 3]);
        context.strokeRect(left + (place % 2 ? 0 : 18 * plan.dot) - 1, y - 0.25, 17 * plan.dot + 2, plan.high + 0.5);
        context.setLineDash([]);
    }

    // A frame about what the lens shows of a tank. It takes a part of the rows beside it, and not all of them.
    frameLens(context, plan, [first, last]) {
        const [left, y] = this.corner(plan, first);
        const line = Math.max(1, Math.floor(plan.high / 3));
        const [wide, high] = [35 * plan.dot + 6, (last - first + 1) * plan.high + 2 * line];
        context.fillStyle = COLOURS.lens;
        const sides = [[0, 0, wide, line], [0, high - line, wide, line], [0, 0, 2, high], [wide - 2, 0, 2, high]];
        for (const [x, top, across, down] of sides) {
            context.fillRect(left - 3 + x, y - line + top, across, down);
        }
    }

    // Removes a frame: the rows that it touched are drawn again.
    unframe(context, plan, first, last) {
        const [left, y] = this.corner(plan, first);
        const edge = Math.min(3, plan.high);
        context.clearRect(left - 4, y - edge, 35 * plan.dot + 8, (last - first + 1) * plan.high + 2 * edge);
        for (let row = first - 1; row <= last + 1; row++) {
            this.rows.delete(row);
        }
    }

    // The location at a point of the canvas, if there is one.
    placeAt(x, y) {
        const plan = this.plan(this.tanks);
        const column = Math.floor((x - plan.side) / plan.tankWide), row = Math.floor((y - plan.gap) / plan.tankHigh);
        const line = Math.floor((y - plan.gap - row * plan.tankHigh) / plan.high);
        const tank = row * plan.across + column;
        if (column < 0 || column >= plan.across || line < 0 || line > 15 || tank < 0 || tank >= this.tanks) {
            return undefined;
        }
        return tank * 32 + line * 2 + ((x - plan.side - column * plan.tankWide) / plan.dot < 17.5 ? 1 : 0);
    }
}

// The first and the last pair of what is seen in each tank.
function spansOf([first, last]) {
    const spans = [];
    for (let pair = first >> 1; pair <= last >> 1;) {
        const end = Math.min(last >> 1, pair | 15);
        spans.push([pair, end]);
        pair = end + 1;
    }
    return spans;
}
