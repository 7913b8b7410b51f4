"""The verifier in U-Boot, as examples/u-boot adds it: in its sandbox and on 32-bit ARM in an emulator FITs
that are signed boot, and others don't; what boots nevertheless is what the README there warns of. Then
what it costs. `-- SOURCE` names U-Boot's source, unpacked; `-- SOURCE FOLDER` also a folder in which the
builds stay, and are taken from the next time. A whole run takes some twelve minutes."""

import os
import re
import shutil
import subprocess

from tests.by_hand.u_boot_builds import ARM, EXAMPLE, Arm, Sandbox, go_to, is_added_once, is_added_whole, put_source, skip_where_missing
from tests.harness import ARGUMENTS, TOP, blocks_of, checks, holds, said_by
from tests.program import PROGRAM, put, read

GIVEN = [os.path.abspath(it) for it in ARGUMENTS]
SIGNER = str(EXAMPLE / "mkimage-lms-sign")
LEVELS = {"one": "10/8", "short": "10/4", "two": "10/8,10/8"}
# The sandbox's control device tree, and where a kernel is loaded.
TREE = '/dts-v1/; / { model = "test"; compatible = "sandbox"; binman { }; };'
LOADS = {"sandbox": "0x2000000", "arm": "0x41000000"}
SANDBOX = Sandbox("sandbox", "sandbox_defconfig", "-e", "LMS_VERIFY", "-d", "UNIT_TEST", "-d", "CLK_K210", "-d", "EFI_CAPSULE_AUTHENTICATE", "-d", "EFI_LOADER")
CHECKED = Arm("arm", "-e", "LMS_VERIFY", "-d", "EFI_LOADER", "-d", "LEGACY_IMAGE_FORMAT")
DIRECT = Arm("arm-direct", "-e", "LMS_VERIFY_DIRECT", like=CHECKED)
# (It has uImages, as that board by default, and no RSA.)
LEGACY = Arm("arm-legacy", "-e", "LEGACY_IMAGE_FORMAT", "-d", "RSA", like=CHECKED)
RSA = Arm("arm-rsa", "-d", "LMS_VERIFY", like=CHECKED)
BUILDS = [SANDBOX, CHECKED, DIRECT, LEGACY, RSA]
SIGNATURE = "/configurations/conf/signature-1"
REFUSED = "Failed to verify required signature"
MALFORMED = "malformed, or not of this key's kind or upper levels"


def environment(signer=SIGNER):
    """The environment of a `mkimage`."""
    return {**os.environ, "LMS_TOOL": PROGRAM, "MKIMAGE_LMS_SIGN": signer, "SOURCE_DATE_EPOCH": "1700000000"}


def make_keys(folder):
    """Keys of all levels, and one for RSA."""
    os.mkdir(folder)
    for name, levels in LEVELS.items():
        words = ["keygen", "--levels", levels, "--seed", "-", "--id", os.urandom(16).hex()]
        files = ["--state", f"{folder}/{name}.state", "--public", f"{folder}/{name}.pub"]
        said_by(PROGRAM, *words, *files, input=os.urandom(32).hex())
    said_by("openssl", "genrsa", "-out", f"{folder}/rsa.key", "2048")
    said_by("openssl", "req", "-batch", "-new", "-x509", "-key", f"{folder}/rsa.key", "-out", f"{folder}/rsa.crt")


def make_parts():
    """Keys, control device trees and kernels."""
    for folder in ("keys", "others"):
        shutil.rmtree(folder, ignore_errors=True)
        make_keys(folder)
    said_by("dtc", "-q", "-o", "sandbox.dtb", input=TREE)
    said_by(*Arm.machine[:1], "-M", "virt,dumpdtb=emulator.dtb", *Arm.machine[3:], stderr=subprocess.STDOUT)
    said_by("dtc", "-q", "-I", "dtb", "-O", "dtb", "-o", "arm.dtb", "emulator.dtb")
    said_by(f"{ARM}gcc", "-c", "-march=armv7-a", "-mfloat-abi=soft", "-o", "payload.o", EXAMPLE / "payload.S")
    said_by(f"{ARM}objcopy", "-O", "binary", "-j", ".text", "payload.o", "arm.kernel")
    put("sandbox.kernel", os.urandom(4096))
    put("evil.kernel", os.urandom(4096))
    put("arm-large.kernel", read("arm.kernel") + os.urandom(8_000_000))


def source_of(arch, kernel, keys, of):
    """The text that `mkimage` makes a FIT of: its configuration is signed by these keys, or its images."""
    algorithm = {it: "rsa2048" if it == "rsa" else "lms" for it in keys}
    nodes = [f'signature-{k} {{ algo = "sha256,{algorithm[it]}"; key-name-hint = "{it}"; }};' for k, it in enumerate(keys, 1)]
    signed = {it: " ".join(nodes) if it == of else "" for it in ("conf", "image")}
    place = f"load = <{LOADS[arch]}>; entry = <{LOADS[arch]}>;"
    hashed = f'compression = "none"; hash-1 {{ algo = "sha256"; }}; {signed["image"]}'
    return f"""/dts-v1/;
/ {{
    description = "test";
    #address-cells = <1>;
    images {{
        kernel {{ data = /incbin/("{kernel}.kernel"); type = "kernel"; arch = "{arch}"; os = "linux"; {place} {hashed} }};
        fdt {{ data = /incbin/("{arch}.dtb"); type = "flat_dt"; arch = "{arch}"; {hashed} }};
    }};
    configurations {{ default = "conf"; conf {{ kernel = "kernel"; fdt = "fdt"; {signed["conf"]} }}; }};
}};
"""


def runs_mkimage(name, *keys, arch="sandbox", kernel=None, of="conf", folder="keys", signer=SIGNER, required=("-r",)):
    """Has `mkimage` make `name.fit`, and `name.dtb`, the control device tree that requires its keys."""
    put(f"{name}.its", source_of(arch, kernel or arch, keys, of).encode())
    shutil.copy(f"{arch}.dtb", f"{name}.dtb")
    words = ["sandbox/tools/mkimage", "-f", f"{name}.its", "-k", folder, "-K", f"{name}.dtb", *required, f"{name}.fit"]
    how = {"stdin": subprocess.DEVNULL, "stdout": subprocess.PIPE, "stderr": subprocess.STDOUT, "text": True}
    return subprocess.run(words, env=environment(signer), check=False, **how)


def fit(name, *keys, of="conf", **how):
    """The same, which has to end well, with each signature that is asked for."""
    ran = runs_mkimage(name, *keys, of=of, **how)
    made = re.findall(r"(?m)^ +Sign value: +[0-9a-f]+$", ran.stdout)
    holds(ran.returncode == 0 and len(made) == len(keys) * {"conf": 1, "image": 2}[of], f"it says: {ran.stdout[-1500:]}")


def change(name, path, value, turn):
    """A property's bytes as this turns them."""
    contents = said_by("fdtget", "-t", "bx", name, path, value).split()
    said_by("fdtput", "-t", "bx", name, path, value, *turn(contents))


def turned(at):
    """Has the byte at a place turned."""
    return lambda contents: [f"{int(it, 16) ^ (place == at % len(contents)):x}" for place, it in enumerate(contents)]


def boots(build, name, tree, *commands):
    """A build starts what is in a file."""
    said = build.boot(name, tree, *commands)
    holds(build.runs in said, f"it says: {said[-1500:]}")


def is_refused(build, name, tree, why, *commands):
    """A build says why it starts nothing."""
    said = build.boot(name, tree, *commands)
    holds(why in said and build.runs not in said, f"it says: {said[-1500:]}")


def is_checked(name, tree, verdict):
    """The host's program has this verdict."""
    words = ["sandbox/tools/fit_check_sign", "-f", name, "-k", tree]
    ran = subprocess.run(words, stdin=subprocess.DEVNULL, stdout=subprocess.PIPE, stderr=subprocess.STDOUT, text=True, check=False)
    holds(f"Signature check {verdict}" in ran.stdout, f"it says: {ran.stdout}")


def good(name, tree):
    """The sandbox starts it, and the host's program finds it well."""
    boots(SANDBOX, name, tree)
    is_checked(name, tree, "OK")


def bad(name, tree, why=REFUSED):
    """The sandbox says why it doesn't, and the host's program finds it bad."""
    is_refused(SANDBOX, name, tree, why)
    is_checked(name, tree, "bad")


def remove(name, path):
    """Takes a node out."""
    said_by("fdtput", "-r", name, path)


# What is done to a signed FIT, and what is said then.
CHANGES = {
    "a changed kernel": ("Bad Data Hash", lambda it: change(it, "/images/kernel", "data", turned(2048))),
    "another load address": (REFUSED, lambda it: said_by("fdtput", "-t", "x", it, "/images/kernel", "load", "1000000")),
    "another byte of the levels": (MALFORMED, lambda it: change(it, SIGNATURE, "value", turned(3))),
    "another byte of the typecode": (MALFORMED, lambda it: change(it, SIGNATURE, "value", turned(11))),
    "another byte of a chain": (REFUSED, lambda it: change(it, SIGNATURE, "value", turned(500))),
    "another last byte": (REFUSED, lambda it: change(it, SIGNATURE, "value", turned(-1))),
    "a signature that is cut": (MALFORMED, lambda it: change(it, SIGNATURE, "value", lambda contents: contents[:-1])),
    "a signature of 4 bytes": (MALFORMED, lambda it: change(it, SIGNATURE, "value", lambda contents: contents[:4])),
    "a signature and a byte": (MALFORMED, lambda it: change(it, SIGNATURE, "value", lambda contents: [*contents, "0"])),
    "no signature": (REFUSED, lambda it: remove(it, SIGNATURE)),
    "another algorithm": (REFUSED, lambda it: said_by("fdtput", "-t", "s", it, SIGNATURE, "algo", "sha256,rsa2048")),
    "another hash": (REFUSED, lambda it: said_by("fdtput", "-t", "s", it, SIGNATURE, "algo", "sha1,lms")),
}


def is_bad_changed(what):
    """A FIT that was changed so doesn't boot."""
    why, call = CHANGES[what]
    shutil.copy("good.fit", "changed.fit")
    call("changed.fit")
    bad("changed.fit", "good.dtb", why)


def is_bad_by_a_cut_key():
    """A key of 59 bytes is told from a signature of something else."""
    shutil.copy("good.dtb", "cut.dtb")
    change("cut.dtb", "/signature/key-one", "lms,public-key", lambda contents: contents[:-1])
    bad("good.fit", "cut.dtb", MALFORMED)


def is_bad_by_another_key():
    """What another key of the same name signed is refused, also with the good signature."""
    fit("evil", "one", kernel="evil", folder="others")
    good("evil.fit", "evil.dtb")
    bad("evil.fit", "good.dtb")
    value = said_by("fdtget", "-t", "bx", "good.fit", SIGNATURE, "value").split()
    change("evil.fit", SIGNATURE, "value", lambda _: value)
    bad("evil.fit", "good.dtb")


def is_signed_by_images():
    """Images that are signed themselves; not without the kernel's signature."""
    fit("images", "one", of="image")
    good("images.fit", "images.dtb")
    shutil.copy("images.fit", "changed.fit")
    remove("changed.fit", "/images/kernel/signature-1")
    bad("changed.fit", "images.dtb")


def by_levels(name):
    """A key of these levels."""
    fit("levels", name)
    good("levels.fit", "levels.dtb")
    change("levels.fit", SIGNATURE, "value", turned(900))
    bad("levels.fit", "levels.dtb")


def by_two_keys():
    """Of two required keys both have to sign; with required-mode = "any" one has to."""
    fit("both", "one", "short")
    for name in ("one", "short"):
        fit(name, name)
    fit("neither", "two")
    for name in ("both", "one", "short", "neither"):
        good(f"{name}.fit", f"{name}.dtb")
    for name in ("one", "short", "neither"):
        bad(f"{name}.fit", "both.dtb")
    said_by("fdtput", "-t", "s", "both.dtb", "/signature", "required-mode", "any")
    for name in ("both", "one", "short"):
        good(f"{name}.fit", "both.dtb")
    bad("neither.fit", "both.dtb", "Failed to verify 'any' of the required signature(s)")


def is_off_by_environment(build, address):
    """`verify=no` in the environment turns it off, as the README says."""
    name = "unsigned.fit" if build is SANDBOX else "unsigned-arm.fit"
    tree = "good.dtb" if build is SANDBOX else "good-arm.dtb"
    is_refused(build, name, tree, REFUSED)
    boots(build, name, tree, f"setenv verify no; bootm {address}")


def is_off_where_none_is_required():
    """Without `/signature`, or a required key there, an unsigned FIT boots, as the README says."""
    fit("optional", "one", required=())
    is_refused(SANDBOX, "unsigned.fit", "good.dtb", REFUSED)
    for tree in ("sandbox.dtb", "optional.dtb"):
        boots(SANDBOX, "unsigned.fit", tree)


def is_off_by_name(build):
    """An image that `bootm` gets by its name boots unsigned, as the README says."""
    boots(build, "unsigned-arm.fit", "good-arm.dtb", "bootm 42000000:kernel - ${fdtcontroladdr}")


def used(name):
    """How many indices a key has used."""
    said = said_by(PROGRAM, "info", "--state", f"keys/{name}.state")
    return int(re.search(r"(?m)^counter (\d+)$", said)[1])


def signs_once():
    """`mkimage` begins again where it finds no room, and takes one index for each signature."""
    for of, wanted in (("conf", 1), ("image", 2)):
        before = used("two")
        fit("once", "two", of=of)
        holds(used("two") - before == wanted, f"{used('two') - before} indices for {wanted}")
        good("once.fit", "once.dtb")


def needs_a_signer():
    """Where nobody signs, `mkimage` says so."""
    ran = runs_mkimage("nobody", "one", signer="false")
    holds("'false' didn't sign" in ran.stdout, f"it says: {ran.stdout}")


@checks
def u_boot(counter):
    skip_where_missing(GIVEN)
    go_to(GIVEN)
    source = GIVEN[0]
    counter.check("the verifier is added", put_source, source)
    counter.check("it is added once", is_added_once)
    counter.check("it is added whole or not at all", is_added_whole, source)
    for build in BUILDS:
        counter.check(f"{build.name} is built", build.build)
    make_parts()
    in_sandbox(counter)
    for build in (CHECKED, DIRECT, LEGACY):
        on_arm(counter, build)
    counter.check("as the README says", does_as_documented, source)
    counter.check("costs", costs)


def in_sandbox(counter):
    """Checks that the host can make."""
    check = counter.check
    fit("good", "one")
    fit("unsigned")
    check("a signed configuration", good, "good.fit", "good.dtb")
    for what in CHANGES:
        check(what, is_bad_changed, what)
    check("a key without its last byte", is_bad_by_a_cut_key)
    check("another key", is_bad_by_another_key)
    for name in ("short", "two"):
        check(f"levels {LEVELS[name]}", by_levels, name)
    check("signed images", is_signed_by_images)
    check("two keys", by_two_keys)
    check("verify=no in the environment", is_off_by_environment, SANDBOX, "1000000")
    check("no key is required", is_off_where_none_is_required)
    check("an index for a signature", signs_once)
    check("nobody signs", needs_a_signer)


def on_arm(counter, build):
    """The same, in part, for ARM."""
    check = counter.check
    for name in ("one", "two"):
        fit("good-arm", name, arch="arm")
        check(f"{build.name}, levels {LEVELS[name]}", boots, build, "good-arm.fit", "good-arm.dtb")
    fit("unsigned-arm", arch="arm")
    fit("evil-arm", "two", arch="arm", folder="others")
    changes = {
        "a changed signature": (REFUSED, lambda it: change(it, SIGNATURE, "value", turned(-1))),
        "a cut signature": (MALFORMED, lambda it: change(it, SIGNATURE, "value", lambda contents: contents[:-1])),
        "a changed kernel": ("Bad Data Hash", lambda it: change(it, "/images/kernel", "data", turned(-3))),
    }
    for what, (why, call) in changes.items():
        shutil.copy("good-arm.fit", "changed.fit")
        call("changed.fit")
        check(f"{build.name}, {what}", is_refused, build, "changed.fit", "good-arm.dtb", why)
    check(f"{build.name}, no signature", is_refused, build, "unsigned-arm.fit", "good-arm.dtb", REFUSED)
    check(f"{build.name}, signed by others", boots, build, "evil-arm.fit", "evil-arm.dtb")
    check(f"{build.name}, another key", is_refused, build, "evil-arm.fit", "good-arm.dtb", REFUSED)
    check(f"{build.name}, an image by its name", is_off_by_name, build)
    check(f"{build.name}, verify=no in the environment", is_off_by_environment, build, "42000000")
    check(f"{build.name}, an unsigned uImage", judges_legacy, build)


def judges_legacy(build):
    """An unsigned uImage boots where U-Boot has that format, as the README says, and only there."""
    words = ["-A", "arm", "-O", "linux", "-T", "kernel", "-a", "41000000", "-e", "41000000", "-C", "none"]
    said_by("sandbox/tools/mkimage", *words, "-d", "arm.kernel", "legacy.uimage")
    commands = "bootm 42000000 - ${fdtcontroladdr}"
    if build is LEGACY:
        boots(build, "legacy.uimage", "good-arm.dtb", commands)
    else:
        is_refused(build, "legacy.uimage", "good-arm.dtb", "can't get kernel image", commands)


def does_as_documented(source):
    """All commands of the README but those that get the packages: what they boot says that it runs."""
    shutil.rmtree("documented", ignore_errors=True)
    shutil.copytree(source, "documented", symlinks=True)
    environment = {**os.environ, "lms": str(TOP), "PATH": f"{os.path.dirname(PROGRAM)}:{os.environ['PATH']}"}
    blocks = blocks_of("examples/u-boot/README.md")[1:]
    said = said_by("sh", "-eu", "-c", "\n".join(blocks), cwd="documented", env=environment, timeout=3600)
    holds("sha256,lms:dev+" in said and Arm.runs in said, f"it says: {said[-1500:]}")
    shutil.rmtree("documented")


def costs():
    """What the README there has as figures: bytes beside those of RSA's alone, and of a `bootm start`, which
    verifies a configuration twice, and an image once, instructions and stack."""
    for build in (CHECKED, DIRECT):
        print(f"{build.name}: {build.bytes() - RSA.bytes()} bytes more", flush=True)
    rows = [("conf", "arm", ["short", "one", "two", "rsa"]), ("image", "arm-large", ["one", "rsa"]), ("conf", "arm-large", [None])]
    for of, kernel, keys in rows:
        for key in keys:
            fit("cost", *filter(None, [key]), arch="arm", kernel=kernel, of=of)
            for build in (CHECKED, DIRECT):
                millions, stack = build.cost("cost.fit", "cost.dtb")
                print(f"{of} of {kernel} by {LEVELS.get(key, key)}, {build.name}: {millions} million, {stack} of stack", flush=True)
