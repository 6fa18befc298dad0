'use strict';
// The stories that the page tells by itself, and the tapes that are made for them.
const ALPHABET = 'ABCDEFGHIJKLMNOPQRSTUVWXYZ';

// The letters that a name can be printed in: capital letters without their marks, and blanks.
function printable(name) {
    const letters = name.normalize('NFD').toUpperCase().replace(/[^A-Z ]/g, '').trim();
    return letters.slice(0, 12) || 'EDSAC';
}

// The text of a tape that prints letters.
function tapeOf(letters) {
    const signs = [...letters].map((letter) => (letter === ' ' ? '!' : letter));
    const orders = signs.map((_, k) => `O${signs.length + 1 + k}@`).join(' ');
    return `[Prints ${letters}, and stops. The letters are words that stand after the orders.]\n`
        + `T64K GK\n${orders} ZF\n${signs.map((sign) => `${sign}F`).join(' ')}\nEZPF\n`;
}

// The tape of one letter with a hole too many: the K of GK has become an erase.
const FAULTY = '[The tape that prints A, with one hole too many: the K of GK has become *.]\nT64K G*\nO2@ ZF\nAF\nEZPF\n';

const STORIES = [
    { name: 'letter', example: 'letter.tape', isFirst: true }, // it begins with why 1949 matters
    { name: 'name', text: () => tapeOf(printable(by('name').value)) },
    { name: 'changes', example: 'hello.edsac', isProved: true },
    { name: 'disc', example: 'disc.edsac' },
    { name: 'sum', example: 'add.edsac', isProved: true },
    { name: 'first', example: 'squares.tape1', isProved: true },
    { name: 'mirror', example: 'mirror.tape', isProved: true },
    { name: 'fault', text: () => FAULTY },
    { name: 'own' }, // what the box holds
];

// The stories that follow one another, without the one of the visitor's own text.
const ROTATION = STORIES.filter(({ name }) => name !== 'own').map(({ name }) => name);

// The tapes that print one letter.
const LETTER_TAPES = new Set([...ALPHABET].map(tapeOf));

const storyNow = () => STORIES.find((story) => story.name === by('stories').value);

// Loads the text of the story that is chosen.
function loadStory() {
    const story = storyNow();
    const example = EXAMPLES.findIndex((one) => one.name === story.example);
    by('nameLabel').hidden = story.name !== 'name';
    if (story.name === 'own') {
        return;
    }
    by('examples').value = example < 0 ? '' : String(example);
    put(example < 0 ? { text: story.text(), kind: 'tape' } : EXAMPLES[example]);
}

// Shows the story that is chosen, from its beginning, or ends the one that is shown. A short one passes over the tape, with
// a sentence of its own.
async function tell(again) {
    if (page.tour) {
        halt();
        return;
    }
    begin();
    if (!isAlive()) {
        return;
    }
    const story = storyNow();
    const tour = (page.tour = again ? new ShortTour(story, again) : story.name === 'fault' ? new FaultTour(story) : new Tour(story));
    page.toured = tour;
    by('skip').hidden = false;
    drawButtons();
    if (await tour.run()) {
        page.tour = undefined;
        by('skip').hidden = true;
        by('invite').hidden = false;
        drawButtons();
    }
}

// The story after the one that is chosen.
function nextStory() {
    const next = ROTATION[(ROTATION.indexOf(storyNow().name) + 1) % ROTATION.length];
    replacing(() => {
        by('stories').value = next;
        loadStory();
        tell();
    });
}

if (typeof module !== 'undefined') {
    module.exports = { STORIES, printable, tapeOf };
}
