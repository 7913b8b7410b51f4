"""The page of examples/web in a headless Chromium: files are chosen and dropped as a user would,
and what it shows is compared with what is so.

The page is built first, or is the file that is the first argument; a second argument names a
picture to be made of the page. Where there is no Chromium it is skipped."""

import hashlib
import os
import pathlib

from tests.harness import ARGUMENTS, TOP, checks, holds
from tests.merge_check.browser import IS_SHOWN, build_page, found_browser, opened
from tests.merge_check.portable_vectors import LONGEST, signed
from tests.program import is_plain, put
from tests.reference import joined, public_of, signature_of

EXAMPLES = TOP / "examples"
# A public key, what it signed, and the signature.
EXAMPLE = [EXAMPLES / name for name in ("release.pub", "firmware.bin", "firmware.sig")]
LEVELS = [(5, 8)]
# The bytes of the longest signature.
MOST_BYTES = 74988

# Has hashing wait until it may go on.
WAIT = """window.digest = crypto.subtle.digest.bind(crypto.subtle);
crypto.subtle.digest = async (...words) => { await new Promise((go) => { window.go = go; }); return window.digest(...words); }; 0"""
# Has the second piece of a message wait until it may be read.
WAIT_FOR_PIECE = """window.read = ReadableStreamDefaultReader.prototype.read;
window.count = 0;
ReadableStreamDefaultReader.prototype.read = async function () {
    window.count += 1;
    if (window.count === 2) await new Promise((go) => { window.go = go; });
    return window.read.call(this);
}; 0"""
# A message gives other bytes than it has when they are read.
GIVES = """window.stream ??= Blob.prototype.stream;
Blob.prototype.stream = function () { return window.stream.call(%s); }; 0"""
# A file of so many bytes gives one less when it is read.
SHRINKS = """window.whole ??= Blob.prototype.arrayBuffer;
Blob.prototype.arrayBuffer = function () {
    return window.whole.call(this.size === %d ? this.slice(0, this.size - 1) : this);
}; 0"""
# The message is longer than it is.
IS_LONG = """window.size = Object.getOwnPropertyDescriptor(Blob.prototype, "size").get;
window.message = document.querySelector("#message input").files[0].name;
const size = function () { return this.name === window.message ? 2 ** 31 : window.size.call(this); };
Object.defineProperty(File.prototype, "size", { get: size }); 0"""
# A name of a file that would be markup, and markup with scripts of each kind.
MARKUP = "<img src=none: onerror=\"window.ran = 'a name'\"><b>.bin"
SCRIPTS = """<script>window.ran = "a script";</script><script type="module">window.ran = "a module";</script>
<img src="none:" onerror="window.ran = 'a fault'">
<a id="pressed" onclick="window.ran = 'a press'" href="javascript:window.ran='a link'">text</a>"""
PRESSED = "document.getElementById('pressed').click(); new Promise((done) => setTimeout(done, 300))"
IS_REFUSED = """(() => {
    try {
        document.getElementById("outcome").innerHTML = "<b>text</b>";
    } catch (error) {
        return error instanceof TypeError;
    }
    return false;
})()"""
IS_EMPTY = "document.body.innerText.includes('This page has no verifier in it')"
FIELDS = """[...document.querySelectorAll('input')].every(
    (field) => field.labels.length === 1 && field.closest('fieldset').querySelector('legend'))"""


# Whether the verdict and the button are in sight, wherever the page is scrolled to, and nothing is wider
# than the screen.
IN_SIGHT = """[0, document.body.scrollHeight].every((at) => {
    window.scrollTo(0, at);
    const boxes = ["verdict", "sign"].map((id) => document.getElementById(id)).concat(document.querySelector("button"));
    return boxes.map((it) => it.getBoundingClientRect()).every((it) => it.width > 0 && it.top >= 0 && it.bottom <= innerHeight
        && it.left >= 0 && it.right <= innerWidth) && document.documentElement.scrollWidth <= innerWidth;
})"""
# The least contrast of the page's texts, by WCAG 2: the luminance of each beside that behind it.
CONTRAST = """(() => {
    const parts = (color) => color.match(/[\\d.]+/g).map(Number);
    const light = (color) => parts(color).slice(0, 3).map((it) => it / 255)
        .map((it) => it <= 0.04045 ? it / 12.92 : ((it + 0.055) / 1.055) ** 2.4).reduce((sum, it, k) => sum + it * [0.2126, 0.7152, 0.0722][k], 0);
    const behind = (it) => {
        const color = getComputedStyle(it).backgroundColor;
        return parts(color)[3] === 0 ? behind(it.parentElement) : color;
    };
    return Math.min(...[...document.querySelectorAll("h1, p, label, legend, summary, #verdict")].map((it) => {
        const [low, high] = [light(getComputedStyle(it).color), light(behind(it))].sort((a, b) => a - b);
        return (high + 0.05) / (low + 0.05);
    }));
})()"""
# The boxes that the page has, and what is said of them, to a screen reader, too.
SAID = """[...document.querySelectorAll('input')].every((field) => {
    const note = document.getElementById(field.getAttribute('aria-describedby'));
    return note.closest('fieldset') === field.closest('fieldset') && note.matches('[role=status][aria-live=polite]');
})"""


def made(name, message):
    """The names of the files of a public key, of this message and of the signature, which are made."""
    files = [f"{name}.{kind}" for kind in ("pub", "bin", "sig")]
    for file, contents in zip(files, (public_of(LEVELS), message, signature_of(LEVELS, 0, message))):
        put(file, contents)
    return files


def judges_lengths(browser, check):
    """A key has to be as long as it is, and so has a signature, also the longest."""
    public, message, signature = EXAMPLE
    put("cut.pub", public.read_bytes()[:-1])
    put("longer.pub", public.read_bytes() + b"\0")
    for name in ("cut.pub", "longer.pub"):
        verdict, outcome = browser.verdict_on(name, message, signature)
        check(f"{name} is invalid, and no key", verdict == "invalid" and "no HSS public key" in outcome)
    key, _, text = signed(LONGEST, [0] * len(LONGEST), message.read_bytes())
    put("longest.pub", key)
    put("longest.sig", text)
    put("longer.sig", text + b"\0")
    is_valid = browser.verdict_on("longest.pub", message, "longest.sig")[0] == "valid"
    check("the longest signature is valid", is_valid and len(text) == MOST_BYTES)
    check("and not with a byte more", browser.verdict_on("longest.pub", message, "longer.sig")[0] == "invalid")


def judges(browser, check, picture):
    """The verdicts on the example, on a key of two levels, on a long message, and on what differs
    from them in one place."""
    public, message, signature = EXAMPLE
    verdict, outcome = browser.verdict_on(public, message, signature)
    levels, size, length = int.from_bytes(public.read_bytes()[:4], "big"), message.stat().st_size, signature.stat().st_size
    parts = [f"The key has {levels} level", f"Message: firmware.bin, {size} bytes", f"Signature: {length} bytes", "Time: "]
    check("the example is valid", verdict == "valid")
    check("levels, lengths and time are shown", all(part in outcome for part in parts))
    if picture:
        browser.picture(picture)
    put("changed", message.read_bytes()[:-1] + bytes([message.read_bytes()[-1] ^ 1]))
    check("a changed message is invalid", browser.verdict_on(public, "changed", signature)[0] == "invalid")
    put("cut", signature.read_bytes()[:-1])
    check("a cut signature is invalid", browser.verdict_on(public, message, "cut")[0] == "invalid")
    put("long", signature.read_bytes() + b"\0")
    check("a signature that is too long is invalid", browser.verdict_on(public, message, "long")[0] == "invalid")
    put("other", public.read_bytes()[4:])
    verdict, outcome = browser.verdict_on("other", message, signature)
    check("a key of another kind is invalid, and said to be", verdict == "invalid" and "no HSS public key" in outcome)
    verdict, outcome = browser.verdict_on(EXAMPLES / "c/two_levels.pub", message, EXAMPLES / "c/two_levels.sig")
    check("a key of two levels", verdict == "valid" and "The key has 2 levels." in outcome)
    key = public_of(LEVELS)
    parts = joined(key, signature_of(LEVELS, 0, key[4:]), key, signature_of(LEVELS, 1, message.read_bytes()))
    for name, contents in zip(("joined.pub", "joined.sig"), parts):
        put(name, contents)
    check("a joined signature", browser.verdict_on("joined.pub", message, "joined.sig")[0] == "valid")
    put("empty", b"")
    check("an empty message is invalid", browser.verdict_on(public, "empty", signature)[0] == "invalid")
    large = made("large", bytes(range(256)) * (1 << 18))
    check("a message of 64 MiB is valid", browser.verdict_on(*large)[0] == "valid")
    with open(large[1], "r+b") as file:
        file.seek(1 << 25)
        file.write(b"changed")
    check("a change in its midst is seen", browser.verdict_on(*large)[0] == "invalid")


def tells_sizes(browser, check):
    """What is said of a file before anything is pressed."""
    public, message, signature = EXAMPLE
    browser.choose("public", public)
    digest = hashlib.sha256(public.read_bytes()).hexdigest()
    check("levels and SHA-256 of the key", all(it in browser.note("public") for it in ("1 level, the top one 5/8", digest)))
    browser.choose("public", EXAMPLES / "c/two_levels.pub")
    browser.wait_for("document.getElementById('public-note').textContent.startsWith('2 levels')")
    key, text = public.read_bytes(), signature.read_bytes()
    wrong = "document.querySelector('#%s .wrong') !== null"
    for name, contents, said in (
        ("public", key[:-1], "60 bytes, and this file 59"),
        ("public", key + b"\0", "60 bytes, and this file 61"),
        ("public", key[:4] + b"\0\0\0\x0a" + key[8:], "no HSS public key"),
        ("signature", text[:-1], f"has {len(text)} bytes, and this file {len(text) - 1}"),
        ("signature", text + b"\0", f"has {len(text)} bytes, and this file {len(text) + 1}"),
        ("signature", text + bytes(MOST_BYTES), f"has {len(text)} bytes, and this file {len(text) + MOST_BYTES}"),
        ("signature", text[:100], "no HSS signature, or it is cut"),
        ("signature", message.read_bytes(), "no HSS signature, or it is cut"),
        ("signature", b"", "no HSS signature, or it is cut"),
    ):
        # (A file that is chosen again changes nothing.)
        put(f"{name} of {len(contents)}", contents)
        browser.choose(name, f"{name} of {len(contents)}")
        browser.wait_for(f"document.getElementById('{name}-note').textContent.includes({said!r})")
        check(f"a {name} of {len(contents)} bytes: {said}", browser.value(wrong % name) and browser.shown() == "")
    for file in (signature, "longest.sig", EXAMPLES / "c/two_levels.sig"):
        browser.choose("signature", file)
        wanted = f"{pathlib.Path(file).stat().st_size} bytes, as its typecodes ask."
        browser.wait_for(f"document.getElementById('signature-note').textContent === {wanted!r}")
    check("nothing is said against right ones", not browser.value(wrong % "signature"))
    check("what is said is said to a screen reader", browser.value(SAID))


def is_seen(browser, check):
    """The verdict is in sight on a phone and on a laptop, with a sign beside its color, in light and dark; the
    keyboard reaches all that can be used, in order."""
    public, message, signature = EXAMPLE
    signs = set()
    for file in (message, "text"):
        browser.verdict_on(public, file, signature)
        signs.add(browser.value("document.getElementById('sign').textContent"))
        for width, height in ((400, 700), (1200, 600)):
            for scheme in ("light", "dark"):
                browser.show_at(width, height, scheme)
                shown = f"{browser.shown()} at {width} pixels, {scheme}"
                check(f"{shown}, is in sight", browser.value(IN_SIGHT))
                check(f"{shown}, has enough contrast", browser.value(CONTRAST) >= 4.5)
    check("each verdict has a sign of its own", len(signs) == 2 and all(it.strip() for it in signs))
    browser.show_at(1200, 600, "dark")
    dark = browser.value("getComputedStyle(document.body).backgroundColor")
    browser.show_at(1200, 600)
    check("light and dark differ", dark != browser.value("getComputedStyle(document.body).backgroundColor"))
    check("the keyboard reaches all", browser.reached() == ["public", "message", "signature", "button", "summary"])
    first = "document.querySelector('main p').innerText.match(/[.](\\s|$)/g).length"
    check("two sentences stand above the files", browser.value(first) == 2)
    hidden = "document.querySelector('details').open === false && document.querySelector('details').textContent.includes('Trusted, not proved')"
    check("what is trusted is behind How it works", browser.value(hidden))


def takes_files(browser, check):
    """What becomes of a verdict where other files are chosen or dropped, also while it is found."""
    message = EXAMPLES / "firmware.bin"
    for name, file in (("public", "release.pub"), ("message", "firmware.bin"), ("signature", "firmware.sig")):
        browser.drop(name, EXAMPLES / file)
    check("files that are dropped are taken", browser.verdict()[0] == "valid")
    put("other message", b"other")
    browser.choose("message", "other message")
    check("another file takes the verdict away", browser.shown() == "")
    browser.choose("message", message)
    browser.verdict()
    browser.drop("message", "other message")
    check("so does one that is dropped", browser.shown() == "")
    browser.choose("message", message)
    browser.drop("message", "other message", 2)
    check("of two files none is taken", browser.verdict()[0] == "valid")
    browser.value(WAIT)
    browser.press()
    browser.wait_for("window.go !== undefined")
    browser.choose("message", "other message")
    browser.value("window.go(); new Promise((done) => setTimeout(done, 300))")
    check("a verdict on files that were changed meanwhile is not shown", browser.shown() == "")


def says_why_not(browser, check):
    """Where there is no verdict the page says why, and it is for all, and sends nothing."""
    browser.value("crypto.subtle.digest = async () => { throw new Error('no digest'); }; 0")
    check("where hashing fails there is no verdict", browser.verdict() == ("no verdict", "Reason: no digest."))
    browser.value(IS_LONG)
    verdict, outcome = browser.verdict()
    check("nor on a message of more than 2 GB", verdict == "no verdict" and "longer than 2 GB" in outcome)
    check("the page sends nothing", browser.value("fetch('https://example.org/').then(() => false, () => true)"))
    check("each field has a name for a screen reader", browser.value(FIELDS))
    is_live = "document.getElementById('verdict').closest('[role=status][aria-live=polite]') !== null"
    check("the verdict is announced to a screen reader", browser.value(is_live))


def judges_what_changes(browser, check):
    """A file that changes while it is read is not valid, also where what is missing are zeros."""
    zeros = made("zeros", b"ends in zeros" + bytes(8))
    check("a message that ends in zeros is valid", browser.verdict_on(*zeros)[0] == "valid")
    browser.value(GIVES % "this.slice(0, this.size - 8)")
    wanted = "no verdict", "Reason: the message changed while it was read."
    check("on one that lost them there is no verdict", browser.verdict_on(*zeros) == wanted)
    browser.value(GIVES % "new Blob([this, new Uint8Array(1)])")
    check("nor on one that grew", browser.verdict_on(*zeros)[0] == "no verdict")
    for at, kind in ((0, "key"), (2, "signature")):
        files = list(EXAMPLE)
        contents = files[at].read_bytes() + b"\0"
        put(f"longer {kind}", contents)
        files[at] = f"longer {kind}"
        browser.value(SHRINKS % len(contents))
        wanted = "no verdict", f"Reason: longer {kind} changed while it was read."
        check(f"nor by a {kind} that shrank to its length", browser.verdict_on(*files) == wanted)


def judges_what_is_cut(browser, check):
    """A message whose second half, of zeros, is cut off the file while the first one is read."""
    half = 1 << 25
    files = made("half", bytes(range(256)) * (half // 256) + bytes(half))
    check("a message with zeros in its second half is valid", browser.verdict_on(*files)[0] == "valid")
    browser.value(WAIT_FOR_PIECE)
    browser.press()
    browser.wait_for("window.go !== undefined")
    os.truncate(files[1], half)
    browser.value("window.go(); 0")
    browser.wait_for(IS_SHOWN)
    check("there is no verdict where that is cut off while it is read", browser.shown() == "no verdict")


def resists_markup(browser, check, page):
    """No name of a file is markup, and no script runs but the page's own, also not in a copy of the page that
    has others in its markup."""
    public, message, signature = EXAMPLE
    check("the page has a verifier", not browser.value(IS_EMPTY))
    put(MARKUP, message.read_bytes())
    verdict, outcome = browser.verdict_on(public, MARKUP, signature)
    is_text = f"Message: {MARKUP}, " in outcome and browser.value("document.querySelectorAll('#outcome *').length") == 0
    check("the name of a file is shown as text", verdict == "valid" and is_text)
    check("no text becomes markup", browser.value(IS_REFUSED))
    put("marked.html", pathlib.Path(page).read_text(encoding="utf-8").replace("<body>", f"<body>{SCRIPTS}").encode())
    browser.open("marked.html")
    browser.value(PRESSED)
    is_valid = browser.verdict_on(public, message, signature)[0] == "valid"
    check("no script runs but the page's own", is_valid and browser.value("window.ran") is None)
    browser.open(EXAMPLES / "web/index.html")
    check("one that is not built says that it has none", browser.value(IS_EMPTY))


# (The arguments name files from where the tests are run.)
GIVEN = [os.path.abspath(it) for it in ARGUMENTS]


@checks
def the_page(counter):
    program = found_browser()
    page, picture = [*GIVEN, None, None][:2]
    if page is None:
        page = build_page()
        counter.check("the page is a plain file", is_plain, page)

    def check(name, is_so):
        """Counts a check as passed where this is so."""
        counter.check(name, holds, is_so, "it is not so")

    with opened(program, page) as browser:
        judges(browser, check, picture)
        judges_lengths(browser, check)
        tells_sizes(browser, check)
        is_seen(browser, check)
        takes_files(browser, check)
        says_why_not(browser, check)
        browser.open(page)
        judges_what_changes(browser, check)
        browser.open(page)
        judges_what_is_cut(browser, check)
        resists_markup(browser, check, page)
