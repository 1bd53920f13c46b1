/** The texts of help, and those of refused words. */
import {COMMANDS, ELSEWHERE, FILE, MORE, PROGRAM} from './options.js';

/** Flags of the program, of which a command has the first. */
export const HELP = {
    long: 'help',
    short: 'h'
};
export const VERSION = {
    long: 'version',
    short: 'V'
};

const HINT = `For more information, try '--help'.`;

/** An option as it is named. */
export const namedOf = ({long, value}) => (value ? `--${long} <${value}>` : `--${long}`);

export const choicesOf = ({choices}) => (choices ? ` [possible values: ${choices.join(', ')}]` : '');

/** Rows of a name and a text, the texts one below the other. */
function aligned(rows) {
    const width = Math.max(...rows.map(([name]) => name.length));
    return rows.map(([name, text]) => `  ${name.padEnd(width)}  ${text}`).join('\n');
}

const flagRow = ({long, short}, text) => [`-${short}, --${long}`, text];

/** Sections with an empty line between them, and a line end. */
const sections = (...parts) => parts.filter(Boolean).join('\n\n') + '\n';

export function commandHelp({about, usage, options}) {
    const rows = options.map(
        option =>
            [`${option.short ? `-${option.short},` : '   '} ${namedOf(option)}`, option.help + choicesOf(option)]);
    const own = aligned([...rows, flagRow(HELP, 'Print help')]);
    const words = aligned([[`[${FILE.value}]`, FILE.help]]);
    return sections(about, `Usage: ${usage}`, `Arguments:\n${words}`, `Options:\n${own}`, ELSEWHERE);
}

export function programHelp(isLong) {
    const commands = aligned(COMMANDS.map(({name, about}) => [name, about]));
    const other = isLong ? `a summary with '-h'` : `more with '--help'`;
    const rows = [flagRow(HELP, `Print help (see ${other})`), flagRow(VERSION, 'Print version')];
    const blocks = rows.map(([name, text]) => `  ${name}\n          ${text}`).join('\n\n');
    const flags = `Options:\n${isLong ? blocks : aligned(rows)}`;
    return sections(PROGRAM.about, `Usage: ${PROGRAM.usage}`, `Commands:\n${commands}`, flags, isLong && MORE);
}

/** Why words are refused: of the program or of a command, if its usage is told, with a tip if there is one. */
export const usageFault = (what, usage, tip) =>
    sections(`error: ${what}`, tip && `  tip: ${tip}`, usage && `Usage: ${usage}`, HINT);
