'use strict';
// The box of the program: what is wrong with its text, examples and files.

// What the machine reports of a text that it refuses, and what that means; or what a tape may be mistaken in that it reads.
function tellRefusal(told) {
    const isUntold = ['no memory', 'no room', 'fault'].includes(told.ending);
    const { text, kind } = page.program;
    const refusalNow = () => page.words.refusal(told.note, text);
    page.refusal = told.note && !isUntold ? refusalNow() : undefined;
    const form = formOf(text), isMisread = form !== kind && text.trim() !== '';
    const isOther = isMisread && form !== 'source' && kind !== 'source'; // a tape of the other loader is not refused
    const isRefused = page.refusal !== undefined;
    page.slip = isRefused || isUntold || isOther || kind === 'source' ? undefined : slipOf(text, page.items);
    by('refusal').hidden = !isUntold && !isOther && !isRefused && !page.slip;
    by('mark').hidden = !isRefused && !page.slip;
    by('switch').hidden = !isOther && (!isRefused || !isMisread);
    by('text').setAttribute('aria-invalid', String(isRefused));
    sayAt('switch', () => page.words.say(`as.${form}`));
    sayAt('refused', () => (isRefused ? page.words.say('refuses', { note: told.note.trim(), ...refusalNow() })
        : isUntold ? page.words.say(`ends.${told.ending}`, { note: told.note })
            : isOther ? page.words.say(`looks.${form}`) : page.slip ? page.words.say(`hint.${page.slip.hint}`, page.slip) : ''));
}

// What is proved of the program in the box, if it is one of the examples with a law, and unchanged.
function tellProof() {
    const { text, kind } = page.program;
    const proofs = () => page.words.found('exampleProof');
    const example = EXAMPLES.find((one) => one.text === text && one.kind === kind && one.name in proofs());
    sayAt('exampleProof', () => (example ? proofs()[example.name] : ''));
}

function markRefusal() {
    by('text').focus();
    const { from, to } = page.refusal || page.slip;
    by('text').setSelectionRange(from, to);
}

// Punches the tape of the source in the box, and reads it again.
function punch() {
    if (isAlive() && page.program.kind === 'source') {
        const text = new TextDecoder().decode(page.machine.punched(page.program).out);
        replacing(() => {
            by('examples').value = '';
            by('stories').value = 'own';
            put({ text, kind: 'tape' });
        });
    }
}

function chooseExample(number) {
    replacing(() => {
        by('examples').value = String(number);
        by('stories').value = 'own';
        by('nameLabel').hidden = true;
        put(EXAMPLES[number]);
    });
}

async function openFile() {
    const [file] = by('file').files;
    by('file').value = '';
    if (!file) {
        return;
    }
    if (file.size > LONGEST) {
        sayAt('shared', () => page.words.say('badFile'));
        return;
    }
    sayAt('shared');
    const text = (await file.text()).replace(/\r\n/g, '\n');
    replacing(() => {
        by('examples').value = '';
        by('stories').value = 'own';
        put({ text, kind: kindOf(file.name, text) });
    });
}
