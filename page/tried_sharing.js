'use strict';
// What is saved and shared: links, files, tapes on paper, languages.
const fs = require('fs');

async function links(b) {
    for (const [name, orders, small] of [['hello.edsac', 1061, true], ['mirror.tape', 700, false]]) {
        await b.choose(name);
        await b.ask(`if (by('small').checked !== ${small}) by('small').click(); 0`);
        await b.set('at', String(orders));
        const was = await b.ask('[page.program, page.shown.orders, [...page.shown.words].join()]');
        await b.click('link');
        await b.until('!by("linked").hidden && by("linkText").value !== ""');
        const link = await b.ask('by("linkText").value');
        await b.choose('letter.tape');
        await b.ask(`location.hash = ${JSON.stringify(link.split('#')[1])}; 0`);
        await b.until(`page.program.text.length === ${was[0].text.length}`, 10);
        await b.expect(
            `${name} by a link there and back`,
            await b.ask('[page.program, page.shown.orders, [...page.shown.words].join()]'),
            was,
        );
        console.log(`  ${name}: ${was[0].text.length} characters in a link of ${link.split('#')[1].length}`);
        await b.ask('by("linkText").value = ""; by("linked").hidden = true; 0');
        await b.ask('if (by("small").checked) by("small").click(); 0');
    }
    for (const bad of ['p=1AAAA', 'p=0eyJ', 'p=xyz', `p=0${Buffer.from('["tape",0,-1,"ZF"]').toString('base64')}`]) {
        await b.ask(`tellNews(); location.hash = '${bad}'; 0`);
        await b.expect(
            `a broken link ${bad}`,
            await b.until('!by("news").hidden && by("newsSays").textContent.startsWith("This link is not whole")', 5),
            true,
        );
    }
    await b.ask(`location.hash = ''; 0`);
    await b.expect('no link is not broken', await b.until('by("news").hidden', 5), true);
    await b.expect(
        'unpacked where there is no packing',
        await b.ask(`unpacked('0' + btoa('["source",1,7,"x"]'))`),
        { kind: 'source', small: true, orders: 7, text: 'x' },
    );
}

async function files(b) {
    await b.run(() => {
        window.saved = [];
        URL.createObjectURL = (blob) => {
            window.saved.push(blob);
            return 'data:,';
        };
        HTMLAnchorElement.prototype.click = function () { window.savedAs = this.download; };
    });
    await b.choose('hello.edsac');
    await b.click('save');
    await b.expect(
        'a file is saved',
        await b.ask('window.saved[0].text().then((text) => [window.savedAs, text === by("text").value])'),
        ['program.edsac', true],
    );
    const open = (name, text) => b.run(async (called, held) => {
        const list = new DataTransfer();
        list.items.add(new File([held], called));
        by('file').files = list.files;
        await openFile();
        return [by('text').value, by('isSource').checked];
    }, name, text);
    await b.expect('a tape is opened', await open('own.tape', 'T64K GK ZF EZPF'), ['T64K GK ZF EZPF', false]);
    await b.expect(
        'a source is known by its lines',
        await open('own.txt', 'segment main\r\nZ F\r\nenter main\r\n'),
        ['segment main\nZ F\nenter main\n', true],
    );
    await open('cubes.tape1', 'T33S ZS');
    await b.expect('a tape of May 1949', await b.ask('[page.program.kind, by("isTape1").checked]'), ['tape1', true]);
    await open('own.tape', 'T64K GK ZF EZPF');
    const [kept] = await open('long.tape', ' '.repeat(262145));
    await b.expect(
        'a long file is refused',
        [kept.length, await b.text('shared')],
        [15, 'This file is longer than a program can be.'],
    );
    await b.choose('letter.tape');
}

async function strips(b) {
    await b.choose('letter.tape');
    const strip = await b.run(() => {
        by('printed').innerHTML = stripNow();
        by('printed').style.display = 'block';
        const svg = document.querySelector('#printed svg');
        const all = (name) => [...svg.querySelectorAll(name)];
        const boxes = (name, side) => all(name).map((node) => node.getBoundingClientRect()[side]);
        const across = boxes('.sprocket', 'left');
        const ones = (code) => code.toString(2).replace(/0/g, '').length;
        const told = {
            rows: page.rows.length, sprockets: across.length, pitch: across.slice(1).map((x, k) => x - across[k]),
            holes: boxes('.hole', 'width'), signs: all('.sign').map((node) => node.textContent).join(''),
            title: svg.querySelector('.title').textContent, cuts: all('.cut').length,
            punched: Array.from(page.rows, punchedOf).map(ones).reduce((sum, one) => sum + one, 0),
        };
        afterPrint();
        by('printed').style.display = '';
        return told;
    });
    await b.expect('a sprocket hole for each row', strip.sprockets, strip.rows);
    await b.expect(
        'a row is 0.1 inch from the next',
        strip.pitch,
        (all) => all.every((one) => Math.abs(one - 9.6) < 0.01),
    );
    await b.expect('a hole is 0.072 inch wide', strip.holes, (all) => all.every((one) => Math.abs(one - 6.912) < 0.01));
    await b.expect('all holes are there', strip.holes.length, strip.punched);
    await b.expect('digits stand as figures', strip.signs, 'T64KGKO2@ZFAFEZPF');
    const cut = await b.run(() => {
        const { rows, labels } = page;
        Object.assign(page, { rows: new Uint8Array(7001), labels: new Array(7001).fill('P') });
        const svg = stripNow();
        Object.assign(page, { rows, labels });
        return [(svg.match(/sprocket/g) || []).length, svg.includes('Only the first 7,000 rows')];
    });
    await b.expect('a very long tape is drawn in part', cut, [7000, true]);
    await b.expect('title and marks', [strip.title, strip.cuts], ['letter.tape', 1]);
    const [apart, wide] = [strip.pitch[0], strip.holes[0]].map((pixels) => (pixels / 96).toFixed(4));
    console.log(`  the tape as a picture: rows ${apart} inch apart, holes ${wide} inch wide`);
    const holes = await b.run(() => ['.', '*'].map((sign) => punchedOf(page.letters.indexOf(sign)).toString(2)));
    await b.expect('blank has no hole, erase has five', holes, ['0', '11111']);
    await b.expect(
        'names are escaped',
        await b.ask(`stripOf(page.rows, page.labels, punchedOf, '<!--<b>&"', 'x').includes('&lt;!--&lt;b&gt;&amp;&quot;')`),
        true,
    );
    for (const what of ['tape', 'worksheet', 'sheet']) {
        await b.ask(`preparePrint('${what}'); 0`);
        await b.send('Emulation.setEmulatedMedia', { media: 'print' });
        await b.expect(`the ${what} in print`, await b.run(() => {
            const shown = (node) => getComputedStyle(node).display;
            return [shown(document.querySelector('main')), shown(by('printed')), by('printed').textContent.length > 20];
        }),
            ['none', 'block', true]);
        const { data } = await b.send('Page.printToPDF', { preferCSSPageSize: false });
        fs.writeFileSync(`${b.folder}/${what}.pdf`, Buffer.from(data, 'base64'));
        await b.expect(
            `the ${what} as a document`,
            Buffer.from(data, 'base64').toString('latin1').startsWith('%PDF'),
            true,
        );
        await b.send('Emulation.setEmulatedMedia', { media: '' });
        await b.ask('afterPrint(); 0');
    }
}

// The texts of a language that English lacks, or that it has with other values, and those that the language lacks.
function unlike(name) {
    const all = (part, at = '') => Object.entries(part).flatMap(([key, one]) => (typeof one === 'string'
        ? [`${at}${key} ${(one.match(/\{\w+\}/g) || []).sort().join()}`] : all(one, `${at}${key}.`)));
    const [own, english] = [all(LANGUAGES[name]), all(LANGUAGES.en)];
    return [...own.filter((key) => !english.includes(key)), ...english.filter((key) => !own.includes(key))];
}

async function languages(b) {
    for (const name of await b.ask('Object.keys(LANGUAGES)')) {
        const differ = await b.run(unlike, name);
        await b.expect(`the texts of ${name} are those of en, with the same values in them`, differ, []);
    }
    await b.speak('de');
    await b.expect(
        'German',
        [await b.ask('document.documentElement.lang'), await b.text('show'), await b.text('programHead')],
        ['de', 'Zeig es mir', 'Das Programm'],
    );
    await b.set('at', '9');
    await b.expect(
        'an order in German',
        await b.text('meaning'),
        'Lies die nächste Reihe des Lochstreifens, und bring ihre Zahl auf die Plätze 40 und 41.',
    );
    await b.expect(
        'no text is left open',
        await b.run(() => [...document.querySelectorAll('[data-say], p, h2, td, button')]
            .filter((node) => /undefined|\{\w+\}/.test(node.textContent)).map((node) => node.id || node.tagName)),
        [],
    );
    await b.expect(
        'every text of the page is set',
        await b.run(() => [...document.querySelectorAll('[data-say]')].filter((node) => node.textContent === '')
            .map((node) => node.dataset.say)),
        [],
    );
    await b.speak('en');
}

module.exports = { links, files, strips, languages };
