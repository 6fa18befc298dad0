'use strict';
// A story that is ended, at each kind of moment: the machine stays where it is, and nothing invites to go on.
const { pause } = require('./browser.js');
const { hasten } = require('./hasten.js');

const MOMENTS = [
    ['letter', ['told.why', 'aim.letter', 'told.loader', 'told.prepares', 'told.ready', 'told.from', 'told.reads', 'told.landed', 'told.order', 'told.printed']],
    ['disc', ['told.on', 'told.program', 'told.fast']],
    ['fault', ['fault.before', 'fault.read', 'fault.made', 'fault.still', 'fault.check']],
    ['sum', ['proved.sum']],
];

// Begins the story that is chosen, and ends it as soon as it has said something: after how many orders that was. Up to there it
// passes fast.
function endAt(wanted) {
    return new Promise((done) => {
        const { say } = Tour.prototype;
        Tour.prototype.say = function hears(key, values) {
            say.call(this, key, values);
            if (key === wanted) {
                Tour.prototype.say = say;
                const fast = page.hurry;
                page.hurry = 1;
                setTimeout(() => {
                    page.hurry = fast;
                    halt();
                    done(page.shown.orders);
                });
            }
        };
        tell();
    });
}

async function storyEnds(b) {
    await b.run(hasten, 0.02);
    for (const [name, keys] of MOMENTS) {
        await b.set('stories', name);
        for (const key of keys) {
            const orders = await b.run(endAt, key);
            await pause(300);
            await b.expect(`the story ${name}, ended at ${key}`, await b.run(() => [
                page.shown.orders, page.tour === undefined, by('invite').hidden, by('skip').hidden, by('story').textContent, by('show').textContent,
            ]), [orders, true, true, true, '', 'Show me']);
        }
    }
    await b.run(hasten, 1);
    await b.set('stories', 'letter');
}

module.exports = { storyEnds };
