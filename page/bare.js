'use strict';
// What is seen on a page that runs no script, for the tests in a browser.
const { pause } = require('./browser.js');

// Whether the elements of a page that runs no script are seen. While the page is still being loaded it is asked again.
async function seenBare(b, selectors) {
    const seen = async (root, selector) => {
        const { nodeIds } = await b.send('DOM.querySelectorAll', { nodeId: root.nodeId, selector });
        return Promise.all(nodeIds.map(async (nodeId) => ((await b.send('DOM.getBoxModel', { nodeId })).model || { height: 0 }).height > 10));
    };
    for (let left = 20; ; left -= 1) {
        try {
            const { root } = await b.send('DOM.getDocument', { depth: -1 });
            const found = await Promise.all(selectors.map((selector) => seen(root, selector)));
            if (left === 0 || found.every((elements) => elements.length)) {
                return found;
            }
        } catch (error) {
            if (left === 0) {
                throw error;
            }
        }
        await pause(500);
    }
}

module.exports = { seenBare };
