// The package does what its README shows.
import assert from 'node:assert/strict';
import {readFileSync} from 'node:fs';
import test from 'node:test';
import {faultsOf} from './readme.js';

test('the package does what its README shows', async () => {
    const readme = readFileSync(new URL('../README.md', import.meta.url), 'utf8');
    assert.deepEqual(await faultsOf(readme, new URL('../polytwkb.js', import.meta.url).href), []);
});
