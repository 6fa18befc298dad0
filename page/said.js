'use strict';
// Sentences that stand until something else is said, each kept as a function of the language, so that a change of the
// language changes them too.
const said = new Map();

// Says something at a part of the page; without a sentence, nothing. What is already there is not said again.
function sayAt(id, says) {
    said.set(id, says);
    const text = says ? says() : '';
    if (by(id).textContent !== text) {
        by(id).textContent = text;
    }
    if (id === 'story') {
        fitSentence();
    }
}

// A sentence that is too long for its room has smaller letters.
function fitSentence() {
    const now = by('now');
    now.classList.remove('long');
    now.classList.toggle('long', now.scrollHeight > now.clientHeight + 1);
}

// Says all of it again, in the present language. What was said aloud is over.
function sayAgain() {
    said.set('spoken', undefined);
    [...said].forEach(([id, says]) => sayAt(id, says));
}
