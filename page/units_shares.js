'use strict';
// The shares of what is tried in browsers: however many there are, each part is in one of them, and no share takes much longer
// than the others.
const { IN_CHROMIUM, IN_FIREFOX, SECONDS, askedOf } = require('./tried.js');

const namesOf = (parts) => parts && parts.map((part) => part.name);

function shares(same) {
    for (const [where, parts] of [['Chromium', IN_CHROMIUM], ['Firefox', IN_FIREFOX]]) {
        const names = namesOf(parts);
        same(`in ${where} no two parts have one name`, new Set(names).size, names.length);
        for (const count of [1, 2, 3, 4, 100]) {
            const all = Array.from({ length: count }, (_, k) => namesOf(askedOf(parts, `${k + 1}/${count}`)));
            same(`in ${where} each part is in one of ${count} shares`, all.flat().sort(), [...names].sort());
            same(`in ${where} the parts of ${count} shares keep their order`, all.map((share) => names.filter((name) => share.includes(name))), all);
        }
    }
    const seconds = [1, 2, 3, 4].map((k) => askedOf(IN_CHROMIUM, `${k}/4`).reduce((sum, { name }) => sum + (SECONDS[name] || 0), 0));
    same('four shares take about as long', Math.max(...seconds) < 1.2 * Math.min(...seconds), true);
    same('each part that has seconds is tried', Object.keys(SECONDS).filter((name) => !namesOf(IN_CHROMIUM).includes(name)), []);
    same('parts by their names', ['moves', 'examples,moves', 'move', 'moves,move', '', '3/2', '0/2', '1/0'].map((asked) => (
        (namesOf(askedOf(IN_CHROMIUM, asked)) || ['none']).slice(0, 2).join())),
    ['moves', 'moves,examples', 'none', 'none', 'firstTape,moves', 'none', 'none', 'none']);
}

module.exports = { shares };
