'use strict';
// The accumulator and the other registers.

// The accumulator's digits as lamps, and its number beside those of the store. Then the multiplier: its digits stand in the
// table of registers alone.
function drawAccumulator() {
    const { acc, multiplier } = page.shown;
    light(by('accLamps'), binary(acc, ACC));
    by('accNumber').textContent = registerText(acc, ACC);
    by('times').textContent = formNow() === 'digits' ? numberText(multiplier, LONG) : registerText(multiplier, LONG);
    by('timesBox').classList.toggle('idle', multiplier === 0n);
    by('stage').dataset.form = formNow();
}

// A register in the table: its first digit, and the others in tens, or as a number is read now.
function figures(value, digits) {
    if (!['asIs', 'digits'].includes(formNow())) {
        return registerText(value, digits);
    }
    const all = binary(value, digits);
    return `${all[0]}.${all.slice(1).replace(/\d{10}(?=\d)/g, '$& ')}`;
}

// The last printed code: its letter and its five digits, or that nothing was printed.
function lastText(code) {
    return code === NO_CODE ? page.words.say('noCode') : `${page.machine.letter(code)}  ${binary(code, 5)}`;
}
