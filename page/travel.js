'use strict';
// What an order moves is seen to move: from the tape to the store, from the store to the accumulator and back, from the
// store to the paper, and from order to order. Each way leaves a trail until the next picture. Whoever wants less motion
// sees the trails alone.
const FLIGHT = 650; // milliseconds; less if orders follow one another faster

const BENDS = 12; // pieces of a way
const EASING = 'cubic-bezier(.45,0,.25,1)';
const flightNow = () => (page.running ? Math.min(FLIGHT, 800 / speedNow()) : FLIGHT);
const wantsRest = () => matchMedia('(prefers-reduced-motion: reduce)').matches;
const isMoving = () => !wantsRest() && !document.hidden && !(page.hurry < 1) && !(page.tour && page.tour.isQuick);

// The points of a way that bends aside by a share of its length.
function wayOf([x, y], [u, v], bend) {
    const [a, b] = [(x + u) / 2 - (v - y) * bend, (y + v) / 2 + (u - x) * bend];
    return Array.from({ length: BENDS + 1 }, (_, k) => {
        const t = k / BENDS, s = 1 - t;
        return [s * s * x + 2 * s * t * a + t * t * u, s * s * y + 2 * s * t * b + t * t * v];
    });
}

class Travel {
    constructor(stage, svg) {
        Object.assign(this, { stage, svg, playing: [], isAgain: false });
    }

    // Whether anything is seen on its way.
    isSeen() {
        return isMoving() && !this.isAgain;
    }

    // Ends what is under way, and removes its trails.
    clear() {
        this.playing.splice(0).forEach((one) => one.cancel());
        this.svg.replaceChildren();
        this.stage.querySelectorAll('.traveller').forEach((node) => node.remove());
    }

    // A point of a part of the page, or of a box of the window, in pixels of the stage.
    pointOf(part, across = 0.5, down = 0.5) {
        const box = part.getBoundingClientRect ? part.getBoundingClientRect() : part;
        const { left, top } = this.stage.getBoundingClientRect();
        return [box.left + box.width * across - left, box.top + box.height * down - top];
    }

    // Shows a text on its way. What it ends in is seen once it is there. The trail may end beside it.
    go(text, from, to, ends, bend, trailTo = to) {
        const points = wayOf(from, to, bend), duration = flightNow();
        this.trail(wayOf(from, trailTo, bend));
        if (!this.isSeen()) {
            return;
        }
        const node = document.createElement('span');
        node.className = 'traveller';
        node.textContent = text;
        this.stage.append(node);
        const frames = points.map(([x, y]) => ({ transform: `translate(${x}px, ${y}px) translate(-50%, -50%)` }));
        const flight = node.animate(frames, { duration, easing: EASING, fill: 'forwards' });
        flight.onfinish = () => node.remove();
        this.playing.push(flight);
        ends.forEach((end) => {
            const hidden = end.matches('td') ? { opacity: 0 } : { color: 'transparent' }; // a register's glass stays
            this.playing.push(end.animate([hidden, hidden], { duration }));
            const glow = [{ filter: 'brightness(1.7)' }, { filter: 'none' }];
            this.playing.push(end.animate(glow, { delay: duration, duration: 500 }));
        });
    }

    // The lamps of a register slide by this many digits to the right, or to the left if it is below 0, and an arrow below
    // the register's middle says so.
    shift(lamps, by) {
        const lefts = [...lamps.children].map((lamp) => lamp.offsetLeft);
        const pitch = lefts[1] - lefts[0];
        if (this.isSeen()) {
            [...lamps.children].forEach((lamp, k) => {
                const from = lefts[k - by] ?? lefts[k] - by * pitch;
                if (lamp.className === 'on') {
                    const slide = [{ transform: `translateX(${from - lefts[k]}px)` }, { transform: 'none' }];
                    this.playing.push(lamp.animate(slide, { duration: flightNow(), easing: EASING }));
                }
            });
        }
        const middle = this.pointOf(lamps, 0.5, -0.15), reach = Math.max(Math.abs(by), 3) * pitch * Math.sign(by);
        this.trail(wayOf([middle[0] - reach / 2, middle[1]], [middle[0] + reach / 2, middle[1]], 0));
    }

    // The trail of a way, with an arrow at its end.
    trail(points) {
        const [x, y] = points[BENDS], [u, v] = points[BENDS - 2];
        const turn = (Math.atan2(y - v, x - u) * 180) / Math.PI;
        const size = letterHigh() * 0.42;
        const drawn = points.map((point) => point.map((at) => at.toFixed(1)).join(' ')).join('L');
        const line = this.shape('path', { d: `M${drawn}` });
        const place = `translate(${x} ${y}) rotate(${turn})`;
        const head = this.shape('path', { class: 'head', d: `M0 0L${-1.6 * size} ${-size}V${size}Z`, transform: place });
        if (this.isSeen()) {
            const long = line.getTotalLength(), duration = flightNow();
            const dashes = [{ strokeDasharray: `0 ${long}` }, { strokeDasharray: `${long} 0` }];
            const pale = [{ opacity: 1 }, { opacity: 0.6 }];
            this.playing.push(line.animate(dashes, { duration, easing: EASING }));
            this.playing.push(head.animate([{ opacity: 0 }, { opacity: 0 }], { duration: duration * 0.8 }));
            this.playing.push(this.svg.animate(pale, { delay: 2 * duration, duration, fill: 'forwards' }));
        }
    }

    shape(name, values) {
        const node = document.createElementNS('http://www.w3.org/2000/svg', name);
        Object.entries(values).forEach(([key, value]) => node.setAttribute(key, value));
        this.svg.append(node);
        return node;
    }
}

if (typeof module !== 'undefined') {
    module.exports = { wayOf };
}
