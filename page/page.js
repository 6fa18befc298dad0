'use strict';
// The page: its state, the pictures that its buttons ask for, how they are drawn, and its languages.
const FURTHEST = 100000000; // orders: the program goes no further either
const TRIED = 2000000; // orders of a run to its end that nobody watches
const by = (id) => document.getElementById(id);
const isOneScreen = () => matchMedia('(min-width: 60rem) and (min-height: 34rem)').matches;
const store = new StoreView(by('store'), isOneScreen);
const tape = new TapeView(by('tape'));
const lens = new Lens(by('lens'));
const travel = new Travel(by('stage'), by('trails'));
const EMPTY = { words: new Uint32Array(1024), digits: new Uint8Array(512) };
const page = {
    machine: undefined,
    words: undefined, // the language
    program: { text: '', kind: 'tape', small: false },
    rows: new Uint8Array(0),
    items: [], // of the tape, up to its entry
    labels: [], // what is beside each row
    letters: [], // of each code
    refusal: undefined, // what is wrong with the text, if it is refused
    slip: undefined, // what is perhaps meant otherwise on a tape that is read
    way: undefined, // from Start, as far as the machine came
    fault: undefined, // why there is no way
    shown: undefined, // the picture that is drawn
    before: undefined, // the picture with which it is compared
    moves: [], // what moved from the one to the other
    peek: undefined, // a place that a visitor wants to see
    running: undefined, // how far a run is, and when it was seen last
    tour: undefined, // the story that is shown
    isNew: false, // whether the page has just been opened, and nothing was shown but Start
    touched: false, // a browser lets a page sound only once somebody has touched it
    clock: () => performance.now(),
};
const orderText = (word) => writtenFor(page.program.kind, page.machine.order(word));
const isAlive = () => page.shown !== undefined && page.shown.words !== undefined;
const isOver = () => !isAlive() || !['limit', 'stopped'].includes(page.shown.ending) || page.shown.orders >= FURTHEST;
const isFast = () => (page.running ? page.running.place !== undefined || speedNow() > SLOW : Boolean(page.tour && page.tour.isFast));
const isEnded = () => isAlive() && page.shown.ending !== 'limit';

// What a fault of a call means: too little memory, or a fault of the page.
function faultOf(fault) {
    const isMemory = fault instanceof RangeError || /memory/i.test(fault.message);
    return isMemory ? { ending: 'no memory', note: '' } : { ending: 'fault', note: String(fault.message) };
}

// The picture after a count of orders; each stop that was seen before it is passed. A picture that is near helps.
function pictureAt(orders, near) {
    if (page.way === undefined) {
        return page.fault;
    }
    try {
        return page.way.at(orders, near);
    } catch (fault) {
        return faultOf(fault);
    }
}

// Draws a picture beside another one.
function show(shown, before) {
    const was = page.shown;
    const isNewStop = shown.ending === 'stopped' && !(was && was.ending === 'stopped' && was.orders === shown.orders);
    if (shown.ending === 'stopped') {
        shown.way.stops.add(shown.orders);
    }
    page.before = before && before.words ? before : undefined;
    page.shown = shown;
    page.peek = undefined;
    page.isNew = false;
    page.moves = was && was === before ? movesNow() : []; // nothing is seen to move if the visitor went back or far on
    drawPostMortem();
    draw(page.moves.length > 0 && isMoving());
    playMoves();
    if (isNewStop && maySound()) {
        ring();
    }
    if (was && was === before && shown.words && was.words && maySound()) {
        clatter(clatterOf(was, shown));
    }
}

// Shows the machine after a count of orders, beside the picture given, or else that of the order before.
function look(orders, beside) {
    const shown = pictureAt(Math.max(0, Math.min(Math.floor(orders) || 0, FURTHEST)), page.shown);
    show(shown, beside || (shown.orders > 0 ? pictureAt(shown.orders - 1) : EMPTY));
}

// Start: the machine is cleared, the program's tape is mounted, and no order has been obeyed.
function begin() {
    halt();
    closeWord();
    page.program = textNow();
    by('small').disabled = page.program.kind === 'tape1'; // the loader of May 1949 has only the full store
    tanks();
    page.shown = page.way = undefined;
    let told;
    try {
        told = page.machine.rows(page.program);
        page.items = page.machine.items(page.program).items;
        page.way = new Way(page.machine, page.program, told.out);
    } catch (fault) {
        page.fault = faultOf(fault);
        told = { ...page.fault, out: new Uint8Array(0) };
        page.items = [];
    }
    page.rows = told.out;
    findParts();
    page.labels = labelsOf(page.rows, (code) => page.letters[code], page.items);
    tellRefusal(told);
    tellProof();
    look(0);
    drawListing();
    paint();
    keep();
}

function draw(isGliding = false) {
    const { shown, words } = page;
    travel.clear();
    document.body.classList.toggle('rings', shown.ending === 'stopped');
    by('ending').textContent = endingText(shown);
    drawButtons();
    if (!isAlive()) {
        drawNothing();
        return;
    }
    const word = shown.words[shown.counter], order = orderText(word);
    const meaning = page.machine.meaning(word, page.program.small);
    const number = words.number(shown.orders + 1);
    by('place').textContent = words.say('place', { number, place: shown.counter, order });
    by('meaning').textContent = words.meaning(meaning);
    by('done').textContent = doneText();
    by('did').textContent = didText();
    tape.draw(page.rows, shown.rowsLeft, page.labels, page.items, readNow(), isGliding);
    drawLens(meaning);
    drawAccumulator();
    drawParts();
    drawWord();
    store.draw(shown, page.before, page.program.small, meaning.named, [lens.first, lens.first + lens.places.length - 1]);
    by('store').setAttribute('aria-label', words.say('storeNow', { changed: changedText() }));
    const [left, all] = [shown.rowsLeft, page.rows.length];
    const next = page.labels[all - left];
    by('tape').setAttribute('aria-label', words.say(left ? 'tapeNow' : 'tapeDone', { left, all, next }));
    by('orders').textContent = words.number(shown.orders);
    by('counter').textContent = shown.counter;
    by('order').textContent = `${order}  ${binary(word, SHORT)}`;
    by('acc').textContent = figures(shown.acc, ACC);
    by('multiplier').textContent = figures(shown.multiplier, LONG);
    by('last').textContent = lastText(shown.last);
    drawPaper();
    if (document.activeElement !== by('at')) {
        by('at').value = shown.orders;
    }
    drawLook();
    drawTrace();
    markListing();
    drawMarks();
}

// A refused text has no picture.
function drawNothing() {
    const texts = ['place', 'meaning', 'done', 'did', 'who', 'note', 'paper', 'accNumber', 'times'];
    for (const id of [...texts, 'orders', 'counter', 'order', 'acc', 'multiplier', 'last', 'look']) {
        by(id).textContent = '';
    }
    lens.clear();
    tape.clear();
    drawMarks();
    light(by('accLamps'), '');
    if (page.shown.ending === 'refused' || page.shown.ending === 'too long') {
        by('meaning').textContent = page.words.say('cannotRun');
    }
    store.rows.clear();
    by('store').getContext('2d').clearRect(0, 0, by('store').width, by('store').height);
    for (const id of ['store', 'tape']) {
        by(id).setAttribute('aria-label', page.words.say('nothingShown'));
    }
}

async function load() {
    makeLanguages();
    makeKeyboard();
    makeWord();
    if (addressed().has('kiosk')) {
        page.watchdog = new Watchdog();
    }
    speakIn(languageAsked());
    showMain(true);
    by('done').textContent = page.words.say('told.why'); // seen while the machine is compiled
    if (typeof WebAssembly !== 'object') {
        throw new WebAssemblyMissing();
    }
    const wide = hasWideMemories() && !(MODULES.narrow && addressed().has('narrow'));
    const bytes = Uint8Array.from(atob(wide ? MODULES.wide : MODULES.narrow), (c) => c.charCodeAt(0));
    page.machine = new Machine(await WebAssembly.compile(bytes));
    page.letters = Array.from({ length: 32 }, (_, code) => page.machine.letter(code));
    lampsIn(by('accLamps'), ACC);
    by('stories').value = STORIES[0].name;
    listen();
    const isNew = !(await openAtFirst());
    if (page.shown === undefined) {
        loadStory();
    }
    page.isNew = isNew;
    draw();
    if (addressed().has('kiosk')) {
        beginKiosk(addressed().get('kiosk'));
    }
    document.body.dataset.ready = wide ? 'wide' : 'narrow';
}

// Shows the page, or else the sentences that say why it isn't there.
function showMain(isThere) {
    document.querySelector('main').hidden = !isThere;
    by('unable').hidden = isThere;
}

class WebAssemblyMissing extends Error {}

// A browser without the WebAssembly that the machine needs is too old; any other fault is reported as what it is.
function tellFault(fault) {
    const isOld = fault instanceof WebAssemblyMissing || fault.name === 'CompileError';
    if (isOld) {
        showMain(false);
    }
    by('meaning').textContent = page.words.say(isOld ? 'tooOld' : 'ends.fault', { note: fault.message });
    if (!isOld && page.watchdog) {
        page.watchdog.begin();
    }
    document.body.dataset.ready = 'never';
}

load().catch(tellFault);
