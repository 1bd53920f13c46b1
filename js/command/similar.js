/** Words that are close to a word, by the measure of Jaro. */

const CLOSE = 0.7;

/** For each letter of a word the place of its partner in another, or -1. */
function partnersOf(word, other) {
    const reach = Math.max(Math.floor(Math.max(word.length, other.length) / 2) - 1, 0), taken = new Set();
    return word.map((letter, place) => {
        const isPartner = (one, at) => one === letter && Math.abs(at - place) <= reach && !taken.has(at);
        const found = other.findIndex(isPartner);
        if (found >= 0) taken.add(found);
        return found;
    });
}

function closeness(one, two) {
    const word = [...one], other = [...two];
    const places = partnersOf(word, other).filter(place => place >= 0), count = places.length;
    if (!count) return word.length || other.length ? 0 : 1;
    const sorted = [...places].sort((left, right) => left - right);
    const swapped = places.filter((place, at) => other[place] !== other[sorted[at]]).length;
    return (count / word.length + count / other.length + (count - Math.floor(swapped / 2)) / count) / 3;
}

/** The names that are close to a word, the closest last. */
export function similar(word, names) {
    const close = names.map(name => ({name, measure: closeness(word, name)})).filter(({measure}) => measure > CLOSE);
    return close.sort((left, right) => left.measure - right.measure).map(({name}) => name);
}
