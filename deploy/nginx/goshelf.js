// Who asks, and which location answers. goshelf.conf asks `way` once for each request, before anything else.
// `goshelf_front` is goshelf.json, which goshelf-front writes: it holds sums of keys, and no key.

import crypto from 'crypto';

// A target as the go command writes it, without the marks of capitals: the module path is the first group.
const MODULE = /^\/(?:sumdb\/sum\.golang\.org\/lookup\/)?([a-z0-9-]+(?:\.[a-z0-9-]+)+(?:\/[a-z0-9_~-](?:[a-z0-9._~-]*[a-z0-9_~-])?)*)(?:\/@latest|\/@v\/[a-z0-9._~+-]+|@[a-z0-9._~+-]+)$/;

// The person of a header Authorization, whose key and fingerprint it sets; nothing for a key that is unknown or whose day is over. (It runs
// for each request, so it has no regular expression, which would take as long as all of it.)
function known(v, front) {
    const header = v.http_authorization;
    if (!header || !header.startsWith('Basic ')) {
        return null;
    }
    const sent = decoded(header.slice(6)), colon = sent.indexOf(':'), size = sent.length - colon - 1;
    // (base64 may have gaps and lack its end, and then its length is another)
    if (colon < 0 || size < 16 || size > 64 || Math.ceil(sent.length / 3) * 4 !== header.length - 6) {
        return null;
    }
    const key = sent.slice(colon + 1), sum = crypto.createHash('sha256').update(key).digest('hex');
    const fingerprint = sum.slice(0, 16), it = front.users[fingerprint];
    // 16 digits can be met by trying, so the whole sum counts where the file has it. (`$` also matches before an end of line here,
    // so no regular expression with it may say what a key is.)
    if (!it || (it.sha256 ? it.sha256 !== sum : /[^a-z0-9]/.test(key)) || (it.until && isOver(it.until))) {
        return null;
    }
    v.goshelf_key = key;
    v.goshelf_fingerprint = fingerprint;
    return it;
}

// What base64 stands for, a letter for each byte; '' if it is none.
function decoded(text) {
    try {
        return atob(text);
    } catch (error) {
        return '';
    }
}

// Whether the last day or minute is over, in UTC.
function isOver(until) {
    return new Date().toISOString().slice(0, until.length) > until;
}

// A target without the marks of capitals, which are `!` or %21 before a small letter. null if it has another escape.
function plain(target) {
    if (target.indexOf('!') < 0 && target.indexOf('%') < 0) {
        return target;
    }
    const text = target.replace(/(?:!|%21)([a-z])/g, '$1');
    return /[!%]/.test(text) ? null : text;
}

// Where the longest path of owners.json ends, from `start` on, that a text is at or below; `start` if it is below none.
function ownEnd(front, text, start) {
    const owners = front.owners;
    let found = start;
    for (let count = front.deepest, end = start; count > 0 && end >= 0; count--) {
        end = text.indexOf('/', end + 1);
        if (owners[end < 0 ? text.slice(start) : text.slice(start, end)]) {
            found = end < 0 ? text.length : end;
        }
    }
    return found;
}

// The shelves that may publish a path: those of the longest path of owners.json that it is at or below. null if it is public.
function owners(path) {
    if (!(goshelf_front.deepest > 0)) {
        throw new Error('goshelf.json names no path');
    }
    const end = ownEnd(goshelf_front, path, 0);
    return end > 0 ? goshelf_front.owners[path.slice(0, end)] : null;
}

// (a list of a preloaded file has no methods)
function has(list, text) {
    for (let at = 0; at < list.length; at++) {
        if (list[at] === text) {
            return true;
        }
    }
    return false;
}

// The location that asks the public proxy, by what nginx may cache: the `.info` of a branch changes. '' for what it is not asked.
function publicly(text, module) {
    if (!module) {
        return /^\/sumdb\/sum\.golang\.org\/tile\/[0-9a-z]+(?:\/[0-9a-z]+)*(?:\.p\/[0-9]+)?$/.test(text) ? 'public_kept'
            : /^\/sumdb\/sum\.golang\.org\/(?:supported|latest)$/.test(text) ? 'public_now' : '';
    }
    const whole = /\/@v\/v[0-9]+\.[0-9]+\.[0-9]+(?:[-+][^\/]*)?\.(info|mod|zip)$/.exec(text);
    if (whole) {
        return whole[1] === 'zip' ? 'public_zip' : 'public_kept';
    }
    return /\/@(?:latest|v\/list|v\/[^\/]+\.info)$/.test(text) ? 'public_now'
        : /^\/sumdb\/[^@]+[^\/]@[^\/]+$/.test(text) ? 'public_kept' : '';
}

// The location of what is neither a module nor a lookup of one. With a query it is nowhere but at the search of the pages.
function other(uri, text, isAsked) {
    if (uri.startsWith('/sumdb/')) {
        return 'no_database';
    }
    // (goshelf answers 404 too, and where it is away the log of errors would have what may be a key)
    if (isAsked && uri !== '/' && uri !== '/index.html') {
        return 'nowhere';
    }
    if (uri === '/login') {
        return 'known';
    }
    if (/^\/(?:index\.html|(?:m|health|parts)\/.*)?$/.test(uri)) {
        return 'pages';
    }
    return text && /^\/-\/gosum\/[a-z0-9._~+@\/-]+$/.test(text) ? 'ours_kept' : 'ours';
}

function isFile(text) {
    return text.indexOf('/@v/') > 0 && (text.endsWith('.mod') || text.endsWith('.zip') || text.endsWith('.info'));
}

// A target without escapes, as goshelf reads it; '' if it is no text, for which goshelf has nothing.
function unescaped(target) {
    try {
        return decodeURIComponent(target);
    } catch (error) {
        return '';
    }
}

// Whether a version was taken out, here or on the caller's shelf. goshelf.json has the target of each, without the end of a file's name.
function isTakenOut(target, isGet, shelf) {
    const text = target.indexOf('%') < 0 ? target : unescaped(target), start = text.startsWith('/-/gosum/') ? 8 : 0;
    const from = goshelf_front.gone[text.slice(start, isGet && isFile(text) ? text.lastIndexOf('.') : text.length)];
    return from && (from.length === 0 || has(from, shelf));
}

// Sets what the log of publishes has of the target of a module, if goshelf has it, and otherwise.
function note(v, target) {
    const at = target.indexOf('/@v/'), written = (text) => text.replace(/(?:!|%21)([a-z])/g, (_, letter) => letter.toUpperCase());
    if (at > 0) {
        const path = written(target.slice(1, at)), version = written(target.slice(at + 4)), masks = masksOf(v, path, version);
        v.goshelf_path = path;
        v.goshelf_version = version;
        v.goshelf_path_masked = masks[0];
        v.goshelf_version_masked = masks[1];
    }
}

// Sets what the limits, the logs and the locations read of a caller.
function greet(v, front, who) {
    const name = who.name, shelf = who.shelf;
    v.goshelf_user = name;
    v.goshelf_shelf = shelf;
    v[who.machine ? 'goshelf_machine' : 'goshelf_person'] = name;
    v.goshelf_part = shelf + ' ' + front.generation;
}

// The location of a GET of what is ours, by a target as the go command writes it without escapes; '' for any other target. Whatever begins
// with a path of ours is for goshelf alone. (A regular expression of nginx's takes a tenth of the time of one here.)
function quickly(v, front, target, shelf) {
    const form = v.goshelf_form, end = form && ownEnd(front, target, 1);
    if (!form || end === 1) {
        return '';
    }
    const ending = endingOf(v, target.slice(end));
    if (!ending && v.goshelf_wordy && hasKey(target)) {
        return 'in_url';
    }
    return front.gone && isTakenOut(target, true, shelf) ? 'taken_out' : form + ending;
}

// The location of a publish, and of any other request that is neither a GET nor a HEAD.
function published(r, v, target, shelf) {
    const text = plain(target), module = text && MODULE.exec(text), shelves = module && owners(module[1]);
    if (module && r.method === 'PUT') {
        note(v, target);
    }
    if (goshelf_front.gone && isTakenOut(target, false, shelf)) {
        return 'taken_out';
    }
    return shelves && has(shelves, shelf) ? 'ours' : 'not_yours';
}

// The location of a GET or a HEAD.
function read(r, v, front, target, who) {
    if (front.gone && isTakenOut(target, true, who.shelf)) {
        return 'taken_out';
    }
    const text = plain(target), module = text && MODULE.exec(text), shelves = module && owners(module[1]);
    if (shelves && !text.startsWith('/sumdb/')) {
        return isFile(text) ? 'ours_kept' : 'ours';
    }
    const found = r.method === 'GET' && text && !shelves && publicly(text, module);
    if (!found) {
        return other(v.uri, text, target.indexOf('?') >= 0);
    }
    if (v.goshelf_others !== 'public') {
        return 'nowhere';
    }
    v.goshelf_out = 'out';
    v.goshelf_rest = target;
    v[who.machine ? 'goshelf_machine_out' : 'goshelf_person_out'] = who.name;
    return found;
}

// Whether a text has fewer letters and digits than any key.
function isFew(v, text) {
    v.goshelf_rest = text;
    return v.goshelf_few === 'few';
}

// The end of the name of a location: `_plain` for a request that nginx may write into a log of errors as it was sent, of which `rest` is not
// known.
function endingOf(v, rest) {
    v.goshelf_rest = rest;
    return v.goshelf_plain;
}

// A path and a version as a log has them until a module is found by them: both, where fewer than 16 letters and digits are behind the path of
// owners.json, and otherwise `...` in the place of these.
function masksOf(v, path, version) {
    const end = ownEnd(goshelf_front, path.toLowerCase(), 0), own = path.slice(0, end), rest = path.slice(end), isShort = isFew(v, rest);
    const masked = isShort ? path : own && `${own}/...` || '...';
    return [masked, isFew(v, isShort ? rest + version : version) ? version : '...'];
}

// Whether a text has a key that goshelf.json knows, also in capitals or twice.
function hasKey(text) {
    const words = text.replace(/!/g, '').toLowerCase().match(/[a-z0-9]{16,}/g) || [];
    return words.some((word) => {
        const half = word.slice(0, word.length / 2);
        return isKey(word) || (half + half === word && isKey(half));
    });
}

function isKey(word) {
    return word.length <= 64 && goshelf_front.users[crypto.createHash('sha256').update(word).digest('hex').slice(0, 16)];
}

// The location of any other request of somebody who is known.
function slowly(r, v, front, target, who, isRead) {
    // (nginx could not read the request, and asks for the log)
    if (!target) {
        return 'nowhere';
    }
    if (v.uri.startsWith('/k/') || v.goshelf_wordy && hasKey(v.uri)) {
        return 'in_url';
    }
    const name = isRead ? read(r, v, front, target, who) : published(r, v, target, who.shelf);
    return name === 'ours_kept' || name === 'ours' || name === 'public_now' ? name + endingOf(v, target.slice(ownEnd(front, target, 1))) : name;
}

// Sets what is known of the caller, and returns the name of the location.
function decide(r, v) {
    const front = goshelf_front, who = known(v, front);
    if (!who) {
        return front.before && v.http_authorization ? 'before' : 'login';
    }
    greet(v, front, who);
    const target = v.request_uri, method = r.method, isRead = method === 'GET' || method === 'HEAD';
    return isRead && quickly(v, front, target, who.shelf) || slowly(r, v, front, target, who, isRead);
}

// The name of the location. For a plain request some have another, with a log of errors.
function way(r) {
    const v = r.variables;
    try {
        return decide(r, v);
    } catch (error) {
        // (@failed_plain says it)
        return 'failed' + endingOf(v, v.request_uri);
    }
}

// Fails as `way` did, for the log of errors.
function fail(r) {
    decide(r, r.variables);
    r.return(500);
}

// The target of a request by which no module was found, as the log has it: of its query nothing, and of what was sent fewer than 16 letters
// and digits, so that no key can be there in any form. A path of owners.json and the words of nginx's files are not counted.
function masked(r) {
    // (neither is there where nginx cannot read the request)
    const v = r.variables, target = v.request_uri || '-', uri = v.uri || '', at = target.indexOf('?');
    return uri.startsWith('/k/') ? '/k/...' : at < 0 ? shortened(v, target) : shortened(v, target.slice(0, at)) + '?...';
}

function shortened(v, path) {
    if (isFew(v, path.slice(ownEnd(goshelf_front, path, 1)))) {
        return path;
    }
    const found = /^\/(.+)\/@(?:latest|v\/(list|([^\/]*?)(\.(?:info|mod|zip))?))$/.exec(path);
    if (!found) {
        return (/^\/(?:-\/gosum|-|m|sumdb|keys|login|healthz)\//.exec(path) || ['/'])[0] + '...';
    }
    const masks = masksOf(v, found[1], found[3] || ''), file = found[2] && (found[3] === undefined ? found[2] : masks[1] + (found[4] || ''));
    return `/${masks[0]}/@${file === undefined ? 'latest' : 'v/' + file}`;
}

// The number of the goshelf.json that this process has read.
function serial() {
    return String(goshelf_front.serial);
}

// The name of the caller as the line of ~/.netrc has it, which goshelf-front printed: it has no letter that HTML or a shell reads.
function login(r) {
    return r.variables.goshelf_user.replace(/[^A-Za-z0-9._@-]+/g, '-');
}

export default {way, serial, login, masked, fail};
