'use strict';
// How numbers are read: each word, the accumulator and the multiplier as what it is, or all of them as whole numbers, as
// fractions, as orders or as digits. One choice holds for the whole page. A word is one signed number in every view.
const FORMS = ['asIs', 'whole', 'fraction', 'order', 'digits'];
const [SHORT, LONG, ACC] = [17, 35, 71]; // digits of a short word, a long one and the accumulator
const SMALL = 4096; // a number below this, of the last digits alone, is written as that number
const LEAST_ORDER = 2048; // a word whose number is smaller is written as a number where it may be either
const FRACTION_DIGITS = 5; // of a fraction after its point
const LEAST_FRACTION = 1e-5; // a smaller one is written with a power of ten
const formNow = () => by('figures').value || FORMS[0];

const signed = (value, digits) => (value >> BigInt(digits - 1) ? value - (1n << BigInt(digits)) : value);

// The number of a register, as it is read beside those of short words: 5, 0.25.
function numberText(value, digits) {
    const number = Number(signed(value, digits)) / 2 ** (digits - SHORT);
    return number.toLocaleString(page.words.name, { maximumFractionDigits: Math.abs(number) < 1 ? FRACTION_DIGITS : 3 });
}

// The fraction that a word or a register is, with its point after the first digit.
function fractionText(value, digits) {
    const number = Number(signed(value, digits)) / 2 ** (digits - 1);
    const isTiny = number !== 0 && Math.abs(number) < LEAST_FRACTION;
    return number.toLocaleString(page.words.name, isTiny ? { notation: 'scientific', maximumSignificantDigits: FRACTION_DIGITS } : { maximumFractionDigits: FRACTION_DIGITS });
}

// The digits of a register, parted where a short word and a long one end.
const digitsText = (value, digits) => [[0, SHORT], [SHORT, LONG], [LONG, ACC]]
    .map(([from, to]) => binary(value, digits).slice(from, to)).filter(Boolean).join(' ');

// The order that a register's first digits are.
const orderOf = (value, digits) => orderText(Number(value >> BigInt(digits - SHORT)));

// A register, as it is read now. As what it is, a large whole number in the accumulator may be an order.
function registerText(value, digits) {
    const said = numberText(value, digits), number = Number(signed(value, digits)) / 2 ** (digits - SHORT);
    const isWord = Number.isInteger(number) && Math.abs(number) >= LEAST_ORDER;
    return {
        asIs: () => (isWord && digits === ACC ? `${orderOf(value, digits)} = ${said}` : said), whole: () => said, fraction: () => fractionText(value, digits),
        order: () => orderOf(value, digits), digits: () => digitsText(value, digits),
    }[formNow()]();
}

// A word, as it is read now. As what it is, a small one is a number, and any other an order.
function wordText(word, form = formNow()) {
    const { number } = page.machine.meaning(word, false);
    return {
        asIs: () => (Math.abs(number) < LEAST_ORDER ? page.words.number(number) : orderText(word)), whole: () => page.words.number(number),
        fraction: () => fractionText(BigInt(word), SHORT), order: () => orderText(word), digits: () => binary(word, SHORT),
    }[form]();
}

// A register in a sentence: digits that are all 0 are left out at the end.
const registerSpoken = (value, digits) => registerText(value, digits).replace(/( 0+)+$/, '');

// A word in a sentence: as what it is, one that may be an order has its number too.
function wordSpoken(word) {
    const { number } = page.machine.meaning(word, false);
    const isBoth = formNow() === FORMS[0] && Math.abs(number) >= LEAST_ORDER;
    return isBoth ? page.words.say('asNumber', { order: orderText(word), number: page.words.number(number) }) : wordText(word);
}

// The number of a long word, as it is read beside those of short ones. A small one is said to stand at the right end.
function longText(shown, pair) {
    const value = (BigInt(shown.words[pair + 1]) << 18n) | (BigInt(shown.digits[pair >> 1]) << 17n) | BigInt(shown.words[pair]);
    const whole = signed(value, LONG), form = formNow();
    if (form === 'fraction' || form === 'digits') {
        return registerText(value, LONG);
    }
    const isAtRight = whole % (1n << BigInt(LONG - SHORT)) !== 0n && whole < SMALL && whole > -SMALL;
    return isAtRight ? page.words.say('atRight', { number: page.words.number(Number(whole)) }) : numberText(value, LONG);
}

if (typeof module !== 'undefined') {
    module.exports = { FORMS, registerText, registerSpoken, wordText };
}
