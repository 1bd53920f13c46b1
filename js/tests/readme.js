// Runs the first example of README.md, and compares what it prints with what its comments say. For node and browsers.

const bare = text => text.replaceAll(/[\s'"]/g, '');
const formOf = it => (typeof it === 'object' ? JSON.stringify(it) : String(it));

/** Imports a text as a module. */
function run(text) {
    if (globalThis.process?.versions?.node) return import(`data:text/javascript,${encodeURIComponent(text)}`);
    return import(URL.createObjectURL(new Blob([text], {type: 'text/javascript'})));
}

/** The lines that are printed otherwise than the comments say; `url` is that of the package. */
export async function faultsOf(readme, url) {
    const [, code] = /```js\n([^]*?)```/.exec(readme), said = [];
    const expected = [...code.matchAll(/console\.log\(.*\); \/\/ (.*)$/gm)].map(([, comment]) => bare(comment));
    globalThis.saidByReadme = (...words) => said.push(bare(words.map(formOf).join(' ')));
    await run(code.replace(/'polytwkb'/, `'${url}'`).replaceAll('console.log(', 'saidByReadme('));
    const faults = expected.filter((comment, place) => said[place] !== comment);
    return expected.length > 3 && said.length === expected.length ? faults : [`${said.length} of ${expected.length}`];
}
