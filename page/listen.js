'use strict';
// What happens where a visitor presses, chooses or types.
const DOUBLE = 500; // milliseconds in which a second press of a button that starts and stops is the same wish

// Starts or stops something, but doesn't undo that at once.
function once(does, isOn) {
    let last = -Infinity, left = false; // when it was pressed, and what it left
    return (event) => {
        if (event.timeStamp - last > DOUBLE || isOn() !== left) {
            last = event.timeStamp;
            does();
            left = isOn();
        }
    };
}

function listen() {
    const press = (id, does) => { by(id).onclick = does; };
    press('show', once(() => tell(), () => page.tour !== undefined));
    press('skip', () => page.tour && page.tour.skip());
    press('start', () => { readTyped(); begin(); speak(); });
    press('run', once(run, () => page.running !== undefined));
    press('step', () => { readTyped(); halt(); step(); });
    press('back', () => { halt(); back(); });
    press('more', more);
    press('inviteBack', () => { halt(); back(); });
    press('inviteNext', nextStory);
    press('wordRun', runCopy);
    press('wordUndo', () => { opened.word = opened.was; drawWord(); });
    press('wordClose', closeWord);
    press('mark', markRefusal);
    press('replace', () => answerAsk(true));
    press('keep', () => answerAsk(false));
    press('punch', punch);
    press('pmPrint', printPostMortem);
    press('switch', () => {
        by(KIND_BOXES[formOf(by('text').value)]).checked = true;
        begin();
    });
    press('save', () => {
        const { text, kind } = textNow();
        saveFile(`program.${kind === 'source' ? 'edsac' : kind}`, text, 'text/plain');
    });
    press('open', () => by('file').click());
    press('saveTape', () => saveFile('tape.svg', stripNow(), 'image/svg+xml'));
    press('printTape', () => printOut('tape'));
    press('printWorksheet', () => printOut('worksheet'));
    press('printSheet', () => printOut('sheet'));
    press('printLoaders', () => printOut('loaders'));
    press('check', checkLesson);
    press('follow', () => { follow(by('follow').getAttribute('aria-pressed') !== 'true'); draw(); });
    listenToBoxes();
    listenToBench();
    listenToMarks();
    listenToPage();
    listenToLinks();
    listenToKept();
}

function listenToBoxes() {
    by('stories').onchange = () => replacing(loadStory);
    listenToName();
    by('speed').oninput = by('speed').onchange = drawPace;
    by('at').onchange = () => { halt(); look(Number(by('at').value)); speak(); };
    by('examples').onchange = () => {
        const chosen = by('examples').value;
        return chosen === '' ? bringOwnBack() : chooseExample(Number(chosen));
    };
    by('tank').onchange = () => { follow(false); drawLook(); };
    by('figures').onchange = () => draw();
    by('small').onchange = () => { tanks(); begin(); };
    by('isTape').onchange = by('isTape1').onchange = by('isSource').onchange = begin;
    by('text').oninput = typed;
    by('text').onscroll = follows;
    by('file').onchange = openFile;
    by('lesson').onchange = chooseLesson;
    by('lookBox').ontoggle = () => draw();
    by('traceBox').ontoggle = drawTrace;
    by('listingBox').ontoggle = drawListing;
    by('store').onclick = (event) => { // the lens looks there until the next picture
        const box = by('store').getBoundingClientRect();
        const place = isAlive() ? store.placeAt(event.clientX - box.left, event.clientY - box.top) : undefined;
        if (place !== undefined) {
            by('lookBox').open = true;
            follow(false);
            by('tank').value = String(place >> 5);
            page.peek = place;
            draw();
        }
    };
}

// A name is given by Enter, which shows its story, or by leaving the box. Enter changes the box too, and may leave it.
function listenToName() {
    let given; // the name that was given last
    const give = (does) => {
        given = by('name').value;
        by('stories').value = 'name';
        replacing(does);
    };
    by('name').onchange = () => {
        if (by('name').value !== given && page.program.text !== tapeOf(printable(by('name').value))) {
            give(loadStory);
        }
    };
    by('name').onkeydown = (event) => {
        if (event.key === 'Enter') {
            event.preventDefault(); // it would press the button of the question too
            halt();
            give(() => { loadStory(); tell(); });
        }
    };
}

// Measures all again, and draws it.
function redraw() {
    measured.clear();
    lens.fit();
    if (page.shown) {
        draw();
        playMoves(true);
    }
}

function listenToPage() {
    window.onresize = redraw;
    const sized = new ResizeObserver(redraw);
    ['store', 'lens', 'tape'].forEach((id) => sized.observe(by(id).parentElement));
    window.onbeforeprint = () => document.body.dataset.print || preparePrint('page');
    window.onafterprint = afterPrint;
    feel(() => { page.touched = true; });
    document.onkeydown = (event) => {
        const button = { w: 'show', 0: 'start', s: 'step', b: 'back', r: 'run' }[event.key.toLowerCase()];
        const { tagName, type } = event.target;
        const isTyping = ['TEXTAREA', 'INPUT', 'SELECT'].includes(tagName) && !['checkbox', 'range'].includes(type);
        const isPlain = !event.ctrlKey && !event.altKey && !event.metaKey;
        const isHeld = event.repeat && ['show', 'run'].includes(button); // it would start and stop in turn
        if (button && by('keys').checked && isPlain && !isTyping && !isHeld && !by(button).disabled) {
            by(button).click();
        }
    };
}

// Notes when somebody touches the page.
function feel(does) {
    for (const kind of ['pointerdown', 'keydown', 'input', 'wheel', 'touchmove']) {
        document.addEventListener(kind, does, { capture: true, passive: true });
    }
}
