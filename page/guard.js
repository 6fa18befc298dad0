'use strict';
// What keeps a museum's screen as it is: gestures, menus and keys that would change or leave the page do nothing, and after
// a fault the page begins again.
const RESTART = 5000; // milliseconds from a fault to a new beginning
const STUCK = 60000; // milliseconds in which a story that goes on says something else or waits

const isBox = (node) => ['INPUT', 'TEXTAREA'].includes(node.tagName);

// The keys that leave the page, print it or change its size: those with Control, Alt or Meta, and the function keys. In a
// box a visitor may still copy and paste, and type signs that need a keyboard's third key.
function isLeaving(event) {
    const isTyped = event.getModifierState('AltGraph') || (isBox(event.target) && /^[acvxz]$/i.test(event.key) && !event.altKey);
    return /^(F\d+|Browser\w+|ContextMenu)$/.test(event.key) || ((event.ctrlKey || event.altKey || event.metaKey) && !isTyped);
}

function guard() {
    const stop = (kinds, isStopped = () => true) => kinds.forEach((kind) => {
        document.addEventListener(kind, (event) => isStopped(event) && event.preventDefault(), { capture: true, passive: false });
    });
    stop(['contextmenu', 'dragstart', 'dragover', 'drop', 'gesturestart', 'gesturechange', 'dblclick']);
    stop(['selectstart'], ({ target }) => !isBox(target));
    stop(['wheel'], ({ ctrlKey }) => ctrlKey);
    stop(['touchstart', 'touchmove'], ({ touches }) => touches.length > 1);
    stop(['keydown'], isLeaving);
    document.querySelector('meta[name=viewport]').content += ', maximum-scale=1, user-scalable=no';
    history.pushState(null, '');
    window.addEventListener('popstate', () => history.pushState(null, ''));
}

// Begins again a few seconds after a fault: an exception, a canvas whose picture is lost, a machine without memory, or a
// story that no longer goes on.
class Watchdog {
    constructor(restart = () => location.reload()) {
        this.restart = restart;
        this.due = undefined;
        this.seen = { tour: undefined, waited: 0, since: 0 };
        const begin = () => this.begin();
        // what a browser says of sizes that changed twice in a frame is no fault
        window.addEventListener('error', ({ message }) => /ResizeObserver/.test(message) || begin());
        window.addEventListener('unhandledrejection', begin);
        ['store', 'tape'].forEach((id) => by(id).addEventListener('contextlost', begin));
        setInterval(() => this.look(), 1000);
    }

    begin() {
        this.due = this.due ?? setTimeout(this.restart, RESTART);
    }

    look() {
        const isLost = ['store', 'tape'].some((id) => by(id).getContext('2d').isContextLost?.());
        const isFaulty = page.shown && ['fault', 'no memory'].includes(page.shown.ending);
        const { tour } = page, waited = tour ? tour.waited : 0, now = performance.now();
        if (tour !== this.seen.tour || waited !== this.seen.waited || !tour) {
            this.seen = { tour, waited, since: now };
        }
        if (isLost || isFaulty || now - this.seen.since > STUCK) {
            this.begin();
        }
    }
}
