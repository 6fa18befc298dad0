'use strict';
// How numbers are read: one choice, by keys, for the rows, the accumulator, the sentence and the table, kept from picture to
// picture; and one number for one word in every view.
const { openOn, LOOP } = require('./tried_bench.js');

// What is read after the order that stores 9, in each form: a row, the accumulator's last number in the sentence, the row's old
// word, the table's heads and its row.
const WANTED = {
    en: {
        'as it is': ['P4D', 'was 4', 'Place 61 was 4 and is now 9. The accumulator was 9 and is now 0.', '0', ['P4D', '9', '0.00014', '00000000000001001']],
        'whole number': ['9', 'was 4', 'Place 61 was 4 and is now 9. The accumulator was 9 and is now 0.', '0', ['9']],
        fraction: ['0.00014', 'was 0.00006', 'Place 61 was 0.00006 and is now 0.00014. The accumulator was 0.00014 and is now 0.', '0', ['0.00014']],
        order: ['P4D', 'was P2F', 'Place 61 was P2F and is now P4D. The accumulator was P4D and is now PF.', 'PF', ['P4D']],
        digits: ['P4D', 'was 00000000000000100', 'Place 61 was 00000000000000100 and is now 00000000000001001. '
            + 'The accumulator was 00000000000001001 and is now 00000000000000000.', `${'0'.repeat(17)} ${'0'.repeat(18)} ${'0'.repeat(36)}`, ['00000000000001001']],
    },
    de: {
        'wie es ist': ['P4D', 'war 4', 'Platz 61 war 4 und ist jetzt 9. Der Akkumulator war 9 und ist jetzt 0.', '0', ['P4D', '9', '0,00014', '00000000000001001']],
        'ganze Zahl': ['9', 'war 4', 'Platz 61 war 4 und ist jetzt 9. Der Akkumulator war 9 und ist jetzt 0.', '0', ['9']],
        Bruch: ['0,00014', 'war 0,00006', 'Platz 61 war 0,00006 und ist jetzt 0,00014. Der Akkumulator war 0,00014 und ist jetzt 0.', '0', ['0,00014']],
        Befehl: ['P4D', 'war P2F', 'Platz 61 war P2F und ist jetzt P4D. Der Akkumulator war P4D und ist jetzt PF.', 'PF', ['P4D']],
        Ziffern: ['P4D', 'war 00000000000000100', 'Platz 61 war 00000000000000100 und ist jetzt 00000000000001001. '
            + 'Der Akkumulator war 00000000000001001 und ist jetzt 00000000000000000.', `${'0'.repeat(17)} ${'0'.repeat(18)} ${'0'.repeat(36)}`, ['00000000000001001']],
    },
};

// What is read of place 61.
function seen() {
    const cells = [...lens.rowOf(61).cells].map((cell) => cell.textContent);
    const row = [...document.querySelectorAll('#look tr')].find((one) => one.cells[0].textContent === '61');
    return [cells[2], cells[3], by('did').textContent, by('accNumber').textContent, [...row.cells].slice(1).map((cell) => cell.textContent)];
}

async function numbers(b) {
    const was = b.session;
    for (const [language, forms] of Object.entries(WANTED)) {
        for (const screen of [{ wide: 1366, high: 768, kind: 'mouse' }, { wide: 360, high: 740, kind: 'touch' }]) {
            const where = `on ${screen.wide} pixels, ${language}`;
            await openOn(b, screen, language);
            await b.press('#write', screen.kind);
            await b.press('#new', screen.kind);
            await b.write('#text', LOOP, screen.kind);
            await b.press('#toProgram', screen.kind);
            await b.press('#step', screen.kind);
            await b.press('#step', screen.kind);
            await b.ask('by("lookBox").open = true; by("lookBox").scrollIntoView(); 0');
            for (const [form, wanted] of Object.entries(forms)) {
                await b.press('#step', screen.kind);
                await b.expect(`${where}: ${form}`, [await b.ask('by("figures").selectedOptions[0].textContent'), await b.run(seen)], [form, wanted]);
                await b.press('#back', screen.kind);
                await b.expect(`${where}: ${form} is kept`, await b.ask('by("figures").selectedOptions[0].textContent'), form);
                await b.ask('by("figures").focus(); 0');
                await b.key('ArrowDown');
            }
        }
    }
    await oneNumber(b);
    b.session = was;
}

// The word 114810 of the listing is -16,262 wherever the page shows it as a number, and the opened word ties the two.
async function oneNumber(b) {
    await openOn(b, { wide: 1366, high: 768, kind: 'mouse' }, 'en');
    await b.press('#write');
    await b.press('#new');
    await b.write('#text', 'segment main\nA 61 F\nZ F\nenter main\n');
    await b.press('#toProgram');
    await b.ask('by("figures").focus(); by("lookBox").open = by("listingBox").open = true; 0');
    await b.key('ArrowDown');
    await b.expect('a word in the rows and in the table', await b.run(() => [lens.rowOf(56).cells[2].textContent,
        [...document.querySelectorAll('#look tr')].find((row) => row.cells[0].textContent === '56').cells[1].textContent]), ['-16,262', '-16,262']);
    await b.press('#step');
    await b.press('#lens tbody tr:nth-child(2) button');
    await b.expect('and opened', await b.text('wordNumber'),
        'As a number: -16,262. The listing writes it as 114,810, which is 131,072 more. Nothing in the word says whether it is meant as a number.');
    await b.expect('the listing is that of the program', await b.text('listing'), (said) => said.includes('56 114810 A61F'));
    await b.expect('with a sentence that ties them', await b.run(() => document.querySelector('[data-say=listingSays]').textContent),
        (said) => said.includes('114,810 is -16,262'));
    await b.press('#wordClose');
    await b.set('figures', 'digits');
    await b.expect('read as digits, a row has those of its word', await b.run(() => lens.rowOf(57).cells[3].textContent), '01101000000000000');
}

module.exports = { numbers };
