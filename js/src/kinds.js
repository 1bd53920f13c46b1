/** Words for what callers pass. */

/** The word for what was given. */
export function kindOf(given) {
    if (given === null) return 'null';
    return typeof given === 'object' ? given.constructor?.name ?? 'object' : typeof given;
}
