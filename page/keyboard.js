'use strict';
// The keys on the screen: one of them prints its letter at once, or several of them make a name. A kiosk has no other keyboard.
const NAME_LENGTH = 12;
const keyboard = { isOfLetters: false }; // whether the last key printed its letter at once

// The keys. What one does depends on the story.
function makeKeyboard() {
    by('letters').append(...[...ALPHABET].map((letter) => {
        const key = document.createElement('button');
        key.textContent = letter;
        key.onclick = () => strike(letter);
        return key;
    }));
    by('rubOut').onclick = () => typeName(nameTyped().slice(0, -1));
    by('printName').onclick = () => printName(nameTyped());
}

// Which keys are shown: those for one letter, those for a name, or none.
function keysNow() {
    if (page.tour || page.running || !isAlive() || isBench()) {
        return undefined;
    }
    const story = storyNow()?.name, isOfLetters = keyboard.isOfLetters && LETTER_TAPES.has(page.program.text);
    if (story === 'name' && !(isEnded() && isOfLetters) && (isEnded() || page.shown.orders === 0)) {
        return 'name';
    }
    return isEnded() && (story === 'letter' || LETTER_TAPES.has(page.program.text)) ? 'letter' : undefined;
}

function drawKeyboard() {
    const kind = keysNow();
    by('keyboard').hidden = kind === undefined;
    by('now').classList.toggle('typing', kind !== undefined);
    ['rubOut', 'printName', 'typed'].forEach((id) => { by(id).hidden = kind !== 'name'; });
    by('anotherLetter').hidden = kind === 'name';
    by('typed').textContent = nameTyped() || page.words.say('yourName');
    by('rubOut').disabled = nameTyped() === '';
    by('printName').disabled = nameTyped() === '';
}

const nameTyped = () => by('name').value.toUpperCase();

function strike(letter) {
    if (keysNow() === 'letter') {
        printName(letter);
        keyboard.isOfLetters = true;
    } else {
        typeName((nameTyped() + letter).slice(0, NAME_LENGTH));
    }
}

function typeName(name) {
    by('name').value = name;
    drawKeyboard();
}

// Prints a letter or a name: its tape is mounted, and a short story shows it at work.
function printName(name) {
    keyboard.isOfLetters = false;
    replacing(() => {
        by('stories').value = 'name';
        by('name').value = name;
        loadStory();
        tell({ key: 'told.again', values: { name: printable(name) } });
    });
}
