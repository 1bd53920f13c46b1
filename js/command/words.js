/** The words of a command line. */
import {version} from '../src/module.js';
import {choicesOf, commandHelp, HELP, namedOf, programHelp, usageFault, VERSION} from './help.js';
import {CHECKED, COMMANDS, PROGRAM} from './options.js';
import {similar} from './similar.js';

const USAGE = 2;
const MOST = 2n ** 63n; // from here on a number does not fit

/** What is told of words that ask for no conversion, and the status. */
export class Answer extends Error {
    constructor(status, text) {
        super(text);
        this.status = status;
    }
}

const refused = (...told) => new Answer(USAGE, usageFault(...told));

/** Why a value is refused as a number, or nothing. */
function numberFault(value, {least, most}) {
    if (value === '') return 'cannot parse integer from empty string';
    if (!/^[+-]?[0-9]+$/.test(value)) return 'invalid digit found in string';
    const number = BigInt(value.replace(/^[+-]/, '')) * (value.startsWith('-') ? -1n : 1n);
    if (number >= MOST) return 'number too large to fit in target type';
    if (number < -MOST) return 'number too small to fit in target type';
    return number < least || number > most ? `${number} is not in ${least}..=${most}` : '';
}

/** The value of an option, checked. */
function valueOf(option, value) {
    const {choices, most} = option;
    if (value === undefined || choices && value === '') {
        const listed = choicesOf(option) && `\n ${choicesOf(option)}`;
        throw refused(`a value is required for '${namedOf(option)}' but none was supplied${listed}`);
    }
    const what = `invalid value '${value}' for '${namedOf(option)}'`;
    if (choices && !choices.includes(value)) {
        const close = similar(value, choices).pop();
        throw refused(`${what}\n ${choicesOf(option)}`, '', close && `a similar value exists: '${close}'`);
    }
    const fault = most !== undefined && numberFault(value, option);
    if (fault) throw refused(`${what}: ${fault}`);
    return most === undefined ? value : Number(value) || 0; // -0 is a 0 too
}

/** A word `--name` or `--name=value`, cut. */
function cutLong(word) {
    const [, name, , value] = /^--([^=]*)(=([^]*))?$/.exec(word);
    return {name, value};
}

function checkFlag({long}, value, usage) {
    if (value !== undefined)
        throw refused(`unexpected value '${value}' for '--${long}' found; no more were expected`, usage);
}

/** Reads the words after the name of a command. */
class Reader {
    constructor(command) {
        this.command = command;
        this.values = {};
        this.pending = null; // an option, and the word after it if that has come
        this.isTrailing = false;
    }

    take(word) {
        const {pending, isTrailing} = this;
        if (isTrailing) this.takeFile(word);
        else if (word === '--') this.isTrailing = true;
        else if (word.startsWith('--')) this.takeLong(word);
        else if (word.startsWith('-') && word !== '-') this.takeShort(word);
        else if (pending && pending.value === undefined) pending.value = word;
        else this.takeFile(word);
    }

    /** Refuses options that need another one, or exclude it. */
    check() {
        const {values, command: {options}} = this, of = name => options.find(({long}) => long === name);
        for (const option of CHECKED.map(of).filter(found => found && found.long in values)) {
            const {needs, excludes} = option, what = `the argument '${namedOf(option)}' cannot be used`;
            if (needs && !(needs in values)) throw refused(`${what} without '${namedOf(of(needs))}'`);
            if (excludes in values) throw refused(`${what} with '${namedOf(of(excludes))}'`);
        }
    }

    takeFile(word) {
        const {values, command} = this;
        this.settle();
        if (values.file !== undefined) throw refused(`unexpected argument '${word}' found`, command.usage);
        values.file = word;
    }

    takeLong(word) {
        const {options, usage} = this.command, {name, value} = cutLong(word);
        const option = [...options, HELP].find(({long}) => long === name);
        if (!option) this.refuse(`--${name}`, similar(name, [...options, HELP].map(({long}) => long)).pop());
        if (option === HELP) checkFlag(HELP, value, usage);
        this.begin(option, value);
    }

    takeShort(word) {
        const [letter, ...rest] = [...word.slice(1)], value = rest.join('').replace(/^=/, '');
        const option = [...this.command.options, HELP].find(({short}) => short === letter);
        if (!option) this.refuse(`-${letter}`);
        this.begin(option, rest.length ? value : undefined);
    }

    refuse(named, close) {
        const tip =
            close ? `a similar argument exists: '--${close}'` : `to pass '${named}' as a value, use '-- ${named}'`;
        throw refused(`unexpected argument '${named}' found`, this.command.usage, tip);
    }

    begin(option, value) {
        this.settle();
        if (option === HELP) throw new Answer(0, commandHelp(this.command));
        if (option.isNative)
            throw refused(`'${namedOf(option)}' is not in the command through Node`, this.command.usage);
        if (!option.value) this.takeFlag(option, value);
        else this.pending = {option, value};
        if (value !== undefined) this.settle();
    }

    takeFlag(option, value) {
        checkFlag(option, value, this.command.usage);
        this.checkOnce(option);
        this.values[option.long] = true;
    }

    checkOnce(option) {
        const {values, command} = this;
        if (option.long in values)
            throw refused(`the argument '${namedOf(option)}' cannot be used multiple times`, command.usage);
    }

    /** Takes the option that waits for the next word. */
    settle() {
        const {pending} = this;
        this.pending = null;
        if (!pending) return;
        const {option, value} = pending;
        if (value !== undefined && !option.isList) this.checkOnce(option);
        const found = valueOf(option, value), {[option.long]: before = []} = this.values;
        this.values[option.long] = option.isList ? [...before, found] : found;
    }
}

const named = file => (file === '-' ? undefined : file);

/** Words in which a number below 0 that comes after `--precision` is joined with it, since it looks like an option. */
function joined(words) {
    const end = words.includes('--') ? words.indexOf('--') : words.length, made = [];
    for (const [place, word] of words.entries()) {
        if (place < end && made.at(-1) === '--precision' && /^-[1-8]$/.test(word)) made.push(`${made.pop()}=${word}`);
        else made.push(word);
    }
    return made;
}

/** The byte between two fields. */
function delimiterOf({delimiter = ','}) {
    const found = delimiter === 'tab' || delimiter === '\\t' ? '\t' : delimiter;
    if (/^[\0-\x7f]$/.test(found) && !'"\r\n'.includes(found)) return found.charCodeAt(0);
    const rule = `not one ASCII character or 'tab', or a quotation mark or a line end`;
    throw refused(`invalid value for '--delimiter <C>': ${rule}`);
}

/** What is asked for of a column, if there is one. */
function columnOf(values) {
    const {column: name, precision, ids, null: nulls = []} = values, delimiter = delimiterOf(values);
    if (ids === '') throw refused(`'--ids' with an empty name is not in the command through Node`);
    return name === undefined ? {} : {column: {name, precision, ids, nulls, delimiter}};
}

function requestOf(command, words) {
    const reader = new Reader(command), {values} = reader;
    for (const word of joined(words)) reader.take(word);
    reader.settle();
    reader.check();
    const {'max-nest': nest = 16, style = 'full', geojson, file, output} = values;
    const conversion = geojson ? 'geojson' : command.name;
    return {conversion, nest, style, input: named(file), output: named(output), ...columnOf(values)};
}

/** A tip for an option that stands before the command that has it. */
function misplaced(name, words) {
    const found = COMMANDS.map(command => ({
                                   command: command.name,
                                   close: similar(name, command.options.map(({long}) => long)).pop(),
                                   place: words.indexOf(command.name)
                               }));
    const [first] = found.filter(({close, place}) => close && place >= 0).sort((one, two) => one.place - two.place);
    return first && `'${first.command} --${first.close}' exists`;
}

function refuseLong(name, words) {
    const close = similar(name, [HELP.long, VERSION.long]).pop();
    const tip = close ? `a similar argument exists: '--${close}'` : misplaced(name, words);
    throw refused(`unexpected argument '--${name}' found`, PROGRAM.usage, tip);
}

const answered = (flag, isLong) => new Answer(0, flag === HELP ? programHelp(isLong) : `${PROGRAM.name} ${version}\n`);

/** Answers an option of the program, which comes before a command. */
function answer(word, after) {
    if (!word.startsWith('--')) {
        const [, letter] = [...word], flag = [HELP, VERSION].find(({short}) => short === letter);
        if (!flag) throw refused(`unexpected argument '-${letter}' found`, PROGRAM.usage);
        throw answered(flag, false);
    }
    const {name, value} = cutLong(word), flag = [HELP, VERSION].find(({long}) => long === name);
    if (!flag) refuseLong(name, after);
    checkFlag(flag, value, PROGRAM.usage);
    throw answered(flag, true);
}

function refuseCommand(word, isTrailing) {
    if (isTrailing && COMMANDS.some(({name}) => name === word)) {
        const tip = `subcommand '${word}' exists; to use it, remove the '--' before it`;
        throw refused(`unexpected argument '${word}' found`, PROGRAM.usage, tip);
    }
    const close = similar(word, COMMANDS.map(({name}) => name)).map(name => `'${name}'`).join(', ');
    const many = close.includes(',') ? 'some similar subcommands exist' : 'a similar subcommand exists';
    throw refused(`unrecognized subcommand '${word}'`, PROGRAM.usage, close && `${many}: ${close}`);
}

/** The request that words make, or an Answer. */
export function requestIn(words) {
    // what is not UTF-8 has become this character
    if (words.some(word => word.includes('\ufffd'))) throw new Answer(USAGE, 'polytwkb: a word is not UTF-8\n');
    const [first, ...rest] = words, [word, ...after] = first === '--' ? rest : words, isTrailing = first === '--';
    if (word === undefined) {
        const listed = `[subcommands: ${COMMANDS.map(({name}) => name).join(', ')}]`;
        throw refused(`'polytwkb' requires a subcommand but one was not provided\n  ${listed}`, PROGRAM.usage);
    }
    if (!isTrailing && word.startsWith('-') && word !== '-') answer(word, after);
    const command = COMMANDS.find(({name}) => name === word);
    if (!command || isTrailing) refuseCommand(word, isTrailing);
    return requestOf(command, after);
}
