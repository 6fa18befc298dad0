'use strict';
// Work that lasts: what is in the box is there again after a reload and after the browser's Back, and the last texts can be
// brought back. All of it is in the session's store of the browser, which forgets it with the tab. Where there is none, or it
// is forbidden, the page works without. A kiosk keeps nothing.
const KEPT_AS = 'edsac'; // its name in the session's store
const MOST_FORMER = 5; // texts that can be brought back
const MOST_WORKS = 4; // steps of the browser's history whose texts are kept
const FIRST_WORDS = 42; // letters of a text by which it is chosen
const kept = { step: undefined, address: '', works: {}, former: [] };

const isWork = (work) => Boolean(work) && typeof work.text === 'string' && work.text.length <= LONGEST && work.kind in KIND_BOXES;

// What the session's store holds; nothing if there is none.
function storedNow() {
    try {
        const { works, former } = JSON.parse(sessionStorage.getItem(KEPT_AS)) || {};
        return {
            works: Object.fromEntries(Object.entries(works || {}).filter(([, work]) => isWork(work))),
            former: (former || []).filter(isWork),
        };
    } catch (fault) {
        return { works: {}, former: [] };
    }
}

function storeNow() {
    try {
        sessionStorage.setItem(KEPT_AS, JSON.stringify({ works: kept.works, former: kept.former }));
    } catch (fault) {
        // without a store, or with a full one, what is in the page is all there is
    }
}

// The work as it is now.
function workNow() {
    const example = EXAMPLES[Number(by('examples').value || -1)];
    return {
        ...textNow(), isOwn: editor.isOwn, example: example && example.name, story: by('stories').value, name: by('name').value,
        lesson: by('lesson').value, isBench: isBench(),
    };
}

// Keeps the work for the present step of the browser's history, if there is one: a kiosk has none.
function keep() {
    if (kept.step === undefined) {
        return;
    }
    if (location.href === kept.address) {
        markStep();
    }
    kept.works[kept.step] = workNow();
    Object.keys(kept.works).map(Number).sort((one, two) => two - one).slice(MOST_WORKS).forEach((step) => { delete kept.works[step]; });
    storeNow();
}

// Begins to keep for the present step of the browser's history. The work that was kept for it, if there is one.
function enter() {
    const { step } = history.state || {};
    kept.step = step ?? 1 + Math.max(0, ...Object.keys(kept.works).map(Number));
    kept.address = location.href;
    markStep();
    return kept.works[kept.step];
}

// Marks the present step of the history, unless it is marked. Who opens the same address again takes the mark away.
function markStep() {
    try {
        if (!history.state || history.state.step !== kept.step) {
            history.replaceState({ ...history.state, step: kept.step }, '');
        }
    } catch (fault) {
        // without a history Back leaves the page
    }
}

// The page is opened: by a reload or the browser's Back with the work that was kept, and otherwise with what its address
// asks for. The work of the step before can be brought back then. False if there is nothing but the address.
async function openAtFirst() {
    if (addressed().has('kiosk')) {
        return openAddress();
    }
    Object.assign(kept, storedNow());
    const work = enter();
    if (work === undefined) {
        Object.values(kept.works).filter(({ isOwn }) => isOwn).forEach(remember);
        drawFormer();
        return openAddress();
    }
    drawFormer();
    restore(work);
    openBeside(askedNow());
    return true;
}

// Brings a work back as it was.
function restore(work) {
    put(work);
    const example = EXAMPLES.findIndex(({ name, text }) => name === work.example && text === work.text);
    by('examples').value = example < 0 ? '' : String(example);
    by('stories').value = STORIES.some(({ name }) => name === work.story) ? work.story : 'own';
    by('name').value = work.name || '';
    by('nameLabel').hidden = by('stories').value !== 'name';
    by('lesson').value = work.lesson || '0';
    drawLesson();
    (work.isBench ? openBench : closeBench)();
    editor.isOwn = work.isOwn === true;
    keep();
}

// Remembers a text that is replaced. Those that were typed stay longest, since no list has them.
function remember(work) {
    const same = kept.former.find(({ text }) => text === work.text);
    kept.former = [{ ...work, isOwn: work.isOwn || Boolean(same && same.isOwn) }, ...kept.former.filter((one) => one !== same)];
    while (kept.former.length > MOST_FORMER) {
        const last = kept.former.map(({ isOwn }) => isOwn).lastIndexOf(false);
        kept.former.splice(last < 0 ? MOST_FORMER : last, 1);
    }
}

// The first words of a text, by which it is chosen.
function wordsOf(text) {
    const plain = text.replace(/[;[\]]/g, ' ').replace(/\s+/g, ' ').trim();
    return plain.length > FIRST_WORDS ? `${plain.slice(0, FIRST_WORDS).trim()} …` : plain;
}

// A button for each text that can be brought back.
function drawFormer() {
    by('undo').disabled = kept.former.length === 0;
    by('undo').setAttribute('aria-expanded', String(!by('former').hidden));
    by('former').replaceChildren(...kept.former.map((work) => {
        const button = document.createElement('button');
        button.textContent = wordsOf(work.text);
        button.onclick = () => bringBack(work);
        return button;
    }));
}

function showFormer(isShown) {
    by('former').hidden = !isShown;
    drawFormer();
}

function bringBack(work) {
    replacing(() => {
        showFormer(false);
        by('nameLabel').hidden = true;
        put(work);
        editor.isOwn = work.isOwn;
        by('examples').value = '';
        by('stories').value = 'own';
        keep();
    });
}

// The text that was typed last, for who chooses the own one.
function bringOwnBack() {
    const own = kept.former.find(({ isOwn }) => isOwn);
    if (own && !editor.isOwn) {
        bringBack(own);
    }
}

// Forgets all of it.
function forget() {
    Object.assign(kept, { step: undefined, works: {}, former: [] });
    try {
        sessionStorage.removeItem(KEPT_AS);
        history.replaceState(null, '');
    } catch (fault) {
        // where there is no store, nothing was kept
    }
    showFormer(false);
}

function listenToKept() {
    by('undo').onclick = () => showFormer(by('former').hidden);
    window.addEventListener('pagehide', keep);
    document.addEventListener('visibilitychange', keep);
}

if (typeof module !== 'undefined') {
    module.exports = { wordsOf };
}
