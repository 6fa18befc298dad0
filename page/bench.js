'use strict';
// The workbench: the lesson, the text and the machine are seen together. It has the parts of the exhibit in another order.
const isBench = () => document.documentElement.classList.contains('bench');

// Opens the workbench. A museum's screen stays as it is.
function openBench() {
    if (isBench() || page.kiosk) {
        return;
    }
    halt();
    closeWord();
    page.isNew = false; // nothing here says to press Show me
    document.documentElement.classList.add('bench');
    document.querySelector('main').prepend(by('head'));
    by('program').after(by('stage'));
    by('bar').prepend(by('controls'));
    arranged();
}

// Brings the exhibit back.
function closeBench() {
    if (!isBench()) {
        return;
    }
    halt();
    closeWord();
    document.documentElement.classList.remove('bench');
    by('news').after(by('stage'));
    by('stage').prepend(by('head'));
    by('countdown').before(by('controls'));
    arranged();
    by('write').focus();
}

// All is measured and drawn again where it is now.
function arranged() {
    by('toExhibit').hidden = !isBench();
    redraw();
    by('paper').scrollTop = by('paper').scrollHeight;
    scrollTo(0, 0);
}

// Own text: the workbench with the text at hand.
function write() {
    halt();
    openBench();
    if (!isBench()) { // a museum's screen
        by('program').scrollIntoView();
    }
    by('text').focus();
}

// Reads the text at once, if its typing has not rested yet.
function readTyped() {
    if (editor.timer !== undefined) {
        clearTimeout(editor.timer);
        editor.timer = undefined;
        begin();
    }
}

// Runs the text as it is now, from Start.
function runText() {
    clearTimeout(editor.timer);
    editor.timer = undefined;
    begin();
    run();
}

// The machine at the program's first order: the orders of the loader are passed.
function toProgram() {
    readTyped();
    halt();
    if (isAlive()) {
        look(entryAfter(0));
        speak();
    }
}

// A new source of one order.
function newText() {
    replacing(() => {
        by('examples').value = '';
        by('stories').value = 'own';
        by('nameLabel').hidden = true;
        put({ text: `${page.words.say('newText')}\n`, kind: 'source' });
        by('text').focus();
    });
}

// The lesson from its beginning.
function toLesson() {
    const first = by('lessonText').firstElementChild;
    const head = first && /^H\d$/.test(first.tagName) ? first : by('lessonsHead');
    head.tabIndex = -1;
    head.focus({ preventScroll: true });
    by('lessons').scrollTop = 0;
    if (!isOneScreen()) {
        head.scrollIntoView({ block: 'start' });
    }
}

function toText() {
    by('text').scrollIntoView({ block: 'center' });
    by('text').focus({ preventScroll: true });
}

// A lesson that is chosen is shown beside the text. The focus stays in the list, for those who go through it by keys.
function chosenLesson() {
    if (by('lesson').value === '0') {
        return;
    }
    openBench();
    by('lessons').scrollTop = 0;
    if (isBench() && !isOneScreen()) {
        by('lessonBox').scrollIntoView({ block: 'start' });
    }
}

function listenToBench() {
    const press = (id, does) => { by(id).onclick = does; };
    press('write', write);
    press('inviteWrite', write);
    press('toExhibit', closeBench);
    press('toProgram', toProgram);
    press('toPlace', toPlace);
    press('new', newText);
    press('toLesson', toLesson);
    press('toText', toText);
    by('lesson').addEventListener('change', chosenLesson);
    by('placeWanted').onkeydown = (event) => {
        if (event.key === 'Enter') {
            toPlace();
        }
    };
    by('text').onkeydown = (event) => {
        if (event.key === 'Enter' && (event.ctrlKey || event.metaKey)) {
            event.preventDefault();
            runText();
        }
    };
}
