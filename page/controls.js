'use strict';
// The machine's buttons: Start, Step, Back, Run, and the speed.
const SPEEDS = [1, 5, 50, 650, 10000, 100000]; // orders a second, as the slider has them
const SLOW = 5; // up to this speed what moves is seen to move
const LONGEST_FRAME = 250; // milliseconds: a tab that was hidden doesn't catch up
const speedNow = () => SPEEDS[Number(by('speed').value)];

// One more order. At a stop the machine continues past it.
function step() {
    if (!isOver()) {
        look(page.shown.orders + 1, page.shown);
        speak();
    }
}

function back() {
    if (isAlive() && page.shown.orders > 0) {
        look(page.shown.orders - 1);
        speak();
    }
}

function halt() {
    page.running = undefined;
    if (page.tour) {
        page.tour.end();
        page.tour = undefined;
    }
    sayAt('story');
    sayAt('spoken');
    sayAt('reached');
    by('invite').hidden = by('skip').hidden = true;
    if (page.words) {
        drawButtons();
    }
}

// Run, Pause, or Start again if the machine has ended.
function run() {
    if (page.running) {
        endRun();
        return;
    }
    readTyped();
    halt();
    if (isEnded()) {
        begin();
    }
    if (isOver()) {
        return;
    }
    page.running = { due: page.shown.orders, last: performance.now(), printed: page.shown.printed };
    drawButtons();
    requestAnimationFrame(frame);
}

function frame(now) {
    if (!page.running) {
        return;
    }
    const passed = Math.max(0, Math.min(now - page.running.last, LONGEST_FRAME));
    page.running.last = now;
    page.running.due += (passed / 1000) * speedNow();
    const due = Math.floor(page.running.due);
    if (due > page.shown.orders) {
        look(due, page.shown);
        if (page.shown.ending !== 'limit' || isOver()) {
            endRun();
            return;
        }
    }
    requestAnimationFrame(frame);
}

// A run has ended, or was ended: what it printed is said aloud. How it ended, the sentence says.
function endRun() {
    const { printed } = page.running;
    halt();
    draw();
    speakPrinted(printed);
}

function drawButtons() {
    const { words } = page;
    by('back').disabled = !isAlive() || page.shown.orders === 0;
    by('step').disabled = isOver();
    by('punch').disabled = !isAlive() || page.program.kind !== 'source';
    by('run').disabled = !isAlive() || (!page.running && !isEnded() && isOver());
    by('run').textContent = words.say(page.running ? 'pause' : isEnded() ? 'startAgain' : 'run');
    by('show').textContent = words.say(page.tour ? 'stopShow' : 'show');
    by('show').classList.toggle('first', !page.tour);
    by('speed').parentElement.hidden = Boolean(page.tour);
    drawKeyboard();
    by('stage').classList.toggle('unstarted', Boolean(page.tour && page.tour.isUnstarted));
    by('show').disabled = by('toProgram').disabled = by('toPlace').disabled = !isAlive();
    by('at').disabled = !isAlive();
}

// The name of the speed that the slider stands at.
function drawPace() {
    by('pace').textContent = page.words.say(`speed${speedNow()}`);
    by('speed').setAttribute('aria-valuetext', by('pace').textContent);
}
