'use strict';
// Tapes and sources that are made from a sequence: x becomes 1103515245 x + 12345 modulo 2^31, and its high bits are taken.

function sequence(seed) {
    let x = seed;
    return (below) => {
        x = Number((1103515245n * BigInt(x) + 12345n) % 2147483648n);
        return Math.floor((x / 2147483648) * below);
    };
}

const LETTERS = 'PQWERTYUIOJ#SZK*.F@D!HNM&LXGABCV';
const ORDERS = 'ASHVNTUCRLEGIOFXYZ';

function madeTape(next) {
    if (next(4) === 0) {
        return Array.from({ length: 1 + next(60) }, () => LETTERS[next(32)]).join('') + (next(5) ? '' : '?');
    }
    const items = Array.from({ length: 3 + next(20) }, () => `${ORDERS[next(18)]}${next(3) ? next(24) : ''}${'@@@FD'[next(5)]}`);
    return `T64K GK ${items.join(' ')} EZPF ${LETTERS[next(32)]}${LETTERS[next(32)]}`;
}

function madeTape1(next) {
    const items = Array.from({ length: 3 + next(20) }, () => `${ORDERS[next(18)]}${next(3) ? 31 + next(24) : ''}${'SSSL'[next(4)]}`);
    return `T${31 + items.length + next(3)}S ${items.join(' ')} ZS ${LETTERS[next(32)]}`;
}

function madeSource(next) {
    const lines = ['segment main'];
    const names = ['one', 'two', 'three'];
    names.forEach((name) => {
        for (let i = next(5); i > 0; i--) {
            lines.push(`${ORDERS[next(18)]} ${next(2) ? next(100) : names[next(3)]} ${'FD'[next(2)]}`);
        }
        lines.push(`${name}: ${['Z F', 'P 1 F', 'word -3', 'text "*AB"'][next(4)]}`);
    });
    if (next(3) === 0) {
        const faults = ['one: Z F', 'A nowhere F', 'segment low at 20', 'A 40000 F', 'what', 'use sine as s', 'word 999999', 'long -1'];
        lines.splice(next(lines.length), 0, faults[next(faults.length)]);
    }
    if (next(4)) {
        lines.push('use newline as n');
    }
    lines.push(next(12) ? 'enter main' : '', next(4) ? 'data "12F"' : '');
    return lines.join('\n');
}

module.exports = { ORDERS, sequence, madeTape, madeTape1, madeSource };
