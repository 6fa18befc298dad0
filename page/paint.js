'use strict';
// What all drawings share: the colours, the size of a letter, a canvas in the pixels of its screen. The compiled machine
// hands over what is drawn.
const COLOURS = {
    dot: '#2c9b4a', dark: '#16301f', lit: '#fff3c4', litDark: '#8f8046', band: '#3d3719',
    counter: '#ff8f7a', named: '#8ccbff', paper: '#efe3bf', ink: '#1d1a10', mark: '#ffcf3f', read: '#ffe9a3',
    old: '#7a7050', brass: '#9a7425', lens: '#dfe8ea', ground: '#0f1511',
};

const binary = (value, digits) => value.toString(2).padStart(digits, '0');

// The sizes of parts of the page, which are measured once and again after the window has changed: to measure them in each
// picture would lay out the page twice.
const measured = new Map();

function measure(name, does) {
    if (!measured.has(name)) {
        measured.set(name, does());
    }
    return measured.get(name);
}

// The height of a letter, in pixels: all that is drawn grows with it.
const letterHigh = () => measure('letter', () => parseFloat(getComputedStyle(document.documentElement).fontSize));

// A canvas in the pixels of its screen, with its present width and this height.
function fitted(canvas, wide, high) {
    const scale = window.devicePixelRatio || 1;
    const [across, down] = [Math.max(1, Math.round(wide * scale)), Math.max(1, Math.round(high * scale))];
    const isNew = canvas.width !== across || canvas.height !== down;
    if (isNew) {
        canvas.width = across;
        canvas.height = down;
        canvas.style.height = `${high}px`;
    }
    const context = canvas.getContext('2d');
    context.setTransform(scale, 0, 0, scale, 0, 0);
    return { context, isNew };
}
