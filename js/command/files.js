/** The files that are named. What is written is a new file, which takes its place when all was converted. */
import * as fs from 'node:fs';
import {dirname, isAbsolute, sep} from 'node:path';
import {Status, Stop} from './device.js';

const MOST_LINKS = 40; // that are followed, as Linux follows them
const MOST_NAMES = 10000; // that are tried for a new file
const OWN = 0o600; // permissions of a new file until it has those of another
const ANY = 0o666; // of one that replaces none
const PERMISSIONS = 0o7777;

// The words of the system, which Node says in others.
const WORDS = {
    EACCES: 'Permission denied',
    EBUSY: 'Device or resource busy',
    EDQUOT: 'Disk quota exceeded',
    EEXIST: 'File exists',
    EINVAL: 'Invalid argument',
    EIO: 'Input/output error',
    EISDIR: 'Is a directory',
    ELOOP: 'Too many levels of symbolic links',
    EMFILE: 'Too many open files',
    ENAMETOOLONG: 'File name too long',
    ENFILE: 'Too many open files in system',
    ENODEV: 'No such device',
    ENOENT: 'No such file or directory',
    ENOSPC: 'No space left on device',
    ENOTDIR: 'Not a directory',
    ENXIO: 'No such device or address',
    EPERM: 'Operation not permitted',
    EROFS: 'Read-only file system',
    ETXTBSY: 'Text file busy',
};

/** What an action on a file gives; if the system refuses it, the run ends with its words. */
function tried(name, act) {
    try {
        return act();
    } catch (fault) {
        if (!fault.code) throw fault;
        throw new Stop(Status.DEVICE, WORDS[fault.code] ?? fault.message, name);
    }
}

export const openInput = name => tried(name, () => fs.openSync(name, 'r'));

function linkAt(path) {
    try {
        return fs.readlinkSync(path);
    } catch {
        return null;
    }
}

/** Where the links at a path lead, whether there is a file or not. */
function linked(name) {
    let path = name;
    for (let count = 0; count < MOST_LINKS; count++) {
        const link = linkAt(path);
        if (link === null) return path;
        path = isAbsolute(link) ? link : dirname(path) + sep + link;
    }
    return path;
}

/** A new file with the first numbered name that its folder has not. */
function made(folder, mode) {
    for (let number = 0;; number++) {
        const name = `${folder}${sep}.polytwkb-${number}.tmp`;
        try {
            return {name, file: fs.openSync(name, 'wx', mode)};
        } catch (fault) {
            if (fault.code !== 'EEXIST' || number === MOST_NAMES - 1) throw fault;
        }
    }
}

function removed(name) {
    try {
        fs.unlinkSync(name);
    } catch {
        // it stays, as nothing else can be done
    }
}

/** A new file in the folder of the one that a name leads to, with these permissions if there are any. */
class Replacement {
    constructor(name, permissions) {
        this.replaced = linked(name);
        const mode = permissions === undefined ? ANY : OWN, {name: own, file} = made(dirname(this.replaced), mode);
        this.own = own;
        this.file = file;
        try {
            if (permissions !== undefined) fs.fchmodSync(file, permissions);
        } catch (fault) {
            removed(own);
            throw fault;
        }
    }

    putInPlace() {
        try {
            fs.fsyncSync(this.file);
            fs.closeSync(this.file);
            fs.renameSync(this.own, this.replaced);
        } catch (fault) {
            removed(this.own);
            throw fault;
        }
    }

    remove() {
        fs.closeSync(this.file);
        removed(this.own);
    }
}

function openThere(name) {
    try {
        return fs.openSync(name, fs.constants.O_WRONLY);
    } catch (fault) {
        if (fault.code === 'ENOENT') return null;
        throw fault;
    }
}

function opened(name) {
    const file = openThere(name), there = file === null ? null : fs.fstatSync(file);
    if (there && !there.isFile()) return {file};
    if (there) fs.closeSync(file);
    const replacement = new Replacement(name, there ? there.mode & PERMISSIONS : undefined);
    return {file: replacement.file, replacement};
}

/** An open output: the file to write, and the new file that it is, unless it is a device or a pipe. */
export class Output {
    constructor(name) {
        this.name = name;
        Object.assign(this, tried(name, () => opened(name)));
    }

    /** Ends the output, whole or not at all. */
    keep() {
        const {name, replacement} = this;
        if (replacement) tried(name, () => replacement.putInPlace());
    }

    drop() {
        if (this.replacement) this.replacement.remove();
    }
}
