#!/usr/bin/env bash
# Edits files in place by the built jpath: files of others, ACLs, links, what is no file, locks, full disks, limits, calls
# of the system that fail, a kill at each of them, and other signals. What can't be tried here is named and not counted.
# Last line: 'N passed, M failed'.
set -u
ulimit -c 0
here=$(cd "$(dirname "${BASH_SOURCE[0]}")/.." && pwd)
work=$(mktemp -d) || exit 1
chmod 755 "$work"
trap 'rm -rf "$work"' EXIT
mkdir "$work/bin"
"$here/run" --build jpath --check '$' > "$work/said" 2>&1 || {
    cat "$work/said"
    exit 1
}
cp "$here/crates/jpath/out/jpath" "$work/bin/jpath"
PATH=$work/bin:$PATH exec python3 - "$work" << 'TEXT'
import json, os, re, shutil, signal, socket, stat, subprocess, sys, time

work = sys.argv[1]
passed, failed = 0, 0
OLD, NEW = b'{"a":1, "b":[ 1 ]}\n', b'{"a":7, "b":[ 1 ]}\n'
STRANGER, GROUP = 12345, 23456
is_root = os.geteuid() == 0

def judge(holds, what):
    global passed, failed
    passed, failed = passed + bool(holds), failed + (not holds)
    if not holds:
        print(f"in_place: {what}")

def not_tried(what, why):
    print(f"in_place: not tried: {what}: {why}")

def read(path):
    with open(path, "rb") as it:
        return it.read()

def folder_with(name="a.json", text=OLD):
    """A new folder with one file, and the path of that."""
    folder_with.count += 1
    folder = f"{work}/{folder_with.count}"
    os.mkdir(folder)
    with open(f"{folder}/{name}", "wb") as it:
        it.write(text)
    return folder, f"{folder}/{name}"

folder_with.count = 0

def start(words, before=(), user=None):
    def become():
        if user:
            os.setgroups([])
            os.setgid(user[1])
            os.setuid(user[0])
    return subprocess.Popen([*before, "jpath", *words], stdin=subprocess.DEVNULL, stdout=subprocess.PIPE, stderr=subprocess.PIPE, preexec_fn=become)

def end(process):
    output, error = process.communicate(timeout=60)
    return process.returncode, output.decode(), error.decode()

EDIT = ["-i", "--set", "$.a", "7"]

def edit(path, *more, **how):
    return end(start([*EDIT, *more, path], **how))

def edits(what, path, *more, **how):
    got = edit(path, *more, **how)
    judge(got == (0, "", "") and read(path) == NEW, f"{what}: {got}, {read(path)}")

def refuses(what, path, words, *more, **how):
    """The edit is refused by these words, the file is what it was, and the folder has no more in it."""
    folder = os.path.dirname(path)
    before = sorted(os.listdir(folder))
    is_file = os.path.isfile(path)
    text = read(path) if is_file else b""
    got = edit(path, *more, **how)
    judge(got[0] == 4 and got[1] == "" and got[2].startswith(f"jpath: {path}: ") and words in got[2], f"{what}: {got}")
    judge(sorted(os.listdir(folder)) == before, f"{what}: the folder has {os.listdir(folder)}")
    judge(not is_file or read(path) == text, f"{what}: the file has {read(path) if is_file else None}")

def rights(path):
    it = os.stat(path)
    return it.st_uid, it.st_gid, stat.S_IMODE(it.st_mode)

# ---- names, modes, links

for mode in (0o644, 0o600, 0o440, 0o666, 0o777):
    folder, path = folder_with()
    os.chmod(path, mode)
    edits(f"mode {mode:o}", path)
    judge(rights(path)[2] == mode, f"mode {mode:o} became {rights(path)[2]:o}")
    judge(os.listdir(folder) == ["a.json"], f"mode {mode:o}: {os.listdir(folder)}")

folder, path = folder_with("n" * 255)
edits("a name of 255 bytes", path)

folder, path = folder_with()
os.mkdir(f"{folder}/inner")
os.symlink("../a.json", f"{folder}/inner/one")
os.symlink("one", f"{folder}/inner/two")
judge(edit(f"{folder}/inner/two") == (0, "", "") and read(path) == NEW, "an edit by two links")
judge(os.readlink(f"{folder}/inner/two") == "one" and sorted(os.listdir(f"{folder}/inner")) == ["one", "two"], "the links stay")
os.symlink("none", f"{folder}/lost")
judge(edit(f"{folder}/lost")[0] == 4 and not os.path.exists(f"{folder}/none"), "a link that leads nowhere")

folder, path = folder_with()
os.link(path, f"{folder}/b.json")
refuses("hard links", path, "2 names (hard links)")
inode = os.stat(path).st_ino
edits("hard links, copied", path, "--copy")
judge(read(f"{folder}/b.json") == NEW and os.stat(path).st_ino == inode, "--copy keeps hard links")

folder, path = folder_with(text=OLD * 3000)
judge(edit(path, "--copy") == (0, "", "") and read(path) == NEW * 3000, "a copy of the same length")
judge(end(start(["-i", "--copy", "--remove", "$.b", path])) == (0, "", "") and read(path) == b'{"a":7}\n' * 3000, "a shorter copy")
judge(end(start(["-i", "--copy", "--set-text", "$.a", "x" * 40, path])) == (0, "", "")
      and read(path) == (b'{"a":"' + b"x" * 40 + b'"}\n') * 3000, "a longer copy")
got = end(start(["--copy", "$.a", path]))
judge(got[0] == 2, f"--copy without -i: {got}")

# ---- what is no regular file: told at once

folder, path = folder_with()
os.mkfifo(f"{folder}/fifo")
with socket.socket(socket.AF_UNIX) as it:
    it.bind(f"{folder}/socket")
os.mkdir(f"{folder}/inner")
os.symlink("/dev/zero", f"{folder}/zero")
for name in ("fifo", "socket", "inner", "zero"):
    for more in ((), ("--copy",)):
        refuses(f"{name} {more}", f"{folder}/{name}", "only a regular file is edited in place", *more)

# ---- files of others

if is_root:
    folder, path = folder_with()
    os.chown(path, STRANGER, GROUP)
    os.chmod(path, 0o4640)
    edits("a file of another, by root", path)
    judge(rights(path) == (STRANGER, GROUP, 0o4640), f"a file of another has {rights(path)}")

    folder, path = folder_with()
    os.chmod(folder, 0o777)
    os.chmod(path, 0o666)
    refuses("a file of root, by another", path, "can't have the owner, group and mode", user=(STRANGER, GROUP))
    edits("a file of root, by another, copied", path, "--copy", user=(STRANGER, GROUP))
    judge(rights(path) == (0, 0, 0o666), f"a copied file has {rights(path)}")

    folder, path = folder_with()
    os.chmod(folder, 0o777)
    os.chown(path, STRANGER, 0)
    refuses("a group that one is not in", path, "can't have the owner, group and mode", user=(STRANGER, GROUP))
    os.chown(path, STRANGER, GROUP)
    edits("a file of one's own", path, user=(STRANGER, GROUP))
    judge(rights(path) == (STRANGER, GROUP, 0o644), f"a file of one's own has {rights(path)}")

    for mode, more in [(0o6755, ()), (0o755, ("--copy",))]:
        folder, path = folder_with()
        os.chown(folder, STRANGER, GROUP)
        os.chown(path, STRANGER, GROUP)
        os.chmod(path, 0o6755)
        edits(f"set-user-ID {more}", path, *more, user=(STRANGER, GROUP))
        judge(rights(path) == (STRANGER, GROUP, mode), f"set-user-ID {more}: {rights(path)}")

    folder, path = folder_with()
    os.chmod(path, 0o666)
    os.chown(folder, STRANGER, GROUP)
    os.chmod(folder, 0o555)
    refuses("a folder that one may not write into", path, "ermission denied", user=(STRANGER, GROUP))
    edits("the same, copied", path, "--copy", user=(STRANGER, GROUP))

    def acl_of(path):
        return subprocess.run(["getfacl", "-cps", path], capture_output=True).stdout

    if shutil.which("setfacl"):
        folder, path = folder_with()
        if subprocess.run(["setfacl", "-m", f"u:{STRANGER}:rw,g::-", path]).returncode == 0:
            acl = acl_of(path)
            edits("a file with an ACL, copied", path, "--copy")
            judge(acl != b"" and acl_of(path) == acl, f"--copy keeps an ACL: {acl}, {acl_of(path)}")
            # what the page says that an edit without --copy makes of it
            judge(edit(path) == (0, "", "") and acl_of(path) == b"" and rights(path)[2] == 0o664, f"a lost ACL: {acl_of(path)}, {rights(path)}")
        else:
            not_tried("ACLs", "the file system has none")
    else:
        not_tried("ACLs", "there is no setfacl")
else:
    not_tried("files of others", "this is not root")

# ---- disks

disk = f"{work}/disk"
os.mkdir(disk)
if is_root and subprocess.run(["mount", "-t", "tmpfs", "-o", "size=64k", "tmpfs", disk], capture_output=True).returncode == 0:
    try:
        path = f"{disk}/a.json"
        whole = b'{"a":"' + b"x" * 30000 + b'"}\n'
        with open(path, "wb") as it:
            it.write(whole)
        long = ["-i", "--set-text", "$.a", "y" * 100000, path]
        for more in ([], ["--copy"]):
            got = end(start([*more, *long]))
            judge(got[0] == 4 and got[2].startswith(f"jpath: {path}: "), f"a full disk {more}: {got}")
            judge(read(path) == whole and os.listdir(disk) == ["a.json"], f"a full disk {more} leaves {os.listdir(disk)}")
        with open(path, "wb") as it:
            it.write(OLD)
        subprocess.run(["mount", "-o", "remount,ro", disk], check=True)
        for more in ((), ("--copy",)):
            refuses(f"a disk that is read-only {more}", path, "ead-only", *more)
    finally:
        subprocess.run(["umount", disk])
else:
    not_tried("a full disk and one that is read-only", "none can be mounted")

limited = ["bash", "-c", 'ulimit -f 1; exec "$@"', "bash"]
if os.path.exists("/proc/self/limits"):
    for more in ([], ["--copy"]):
        folder, path = folder_with(text=OLD * 50)
        got = end(start(["-i", *more, "--set-text", "$.a", "x" * 100, path], before=limited))
        judge(got[0] == 4 and "longer than a file may be" in got[2], f"a limit on files {more}: {got}")
        judge(read(path) == OLD * 50 and os.listdir(folder) == ["a.json"], f"a limit on files {more} leaves {os.listdir(folder)}")
        edits(f"a text within a limit on files {more}", folder_with()[1], *more, before=limited)
else:
    not_tried("a limit on files", "the system does not tell it")

# ---- two edits at once, and locks

folder, path = folder_with()
for turn in range(10):
    one, two = start(["-i", "--set", "$.a", str(turn), path]), start(["-i", "--set", "$.b", str(turn), path])
    got = end(one), end(two)
    found = json.loads(read(path))
    judge(got == ((0, "", ""),) * 2 and found == {"a": turn, "b": turn}, f"two edits at once: {got}, {found}")
judge(os.listdir(folder) == ["a.json"], f"two edits at once leave {os.listdir(folder)}")

if shutil.which("flock"):
    folder, path = folder_with()
    holder = subprocess.Popen(["flock", path, "sleep", "2"])
    time.sleep(0.5)
    edits("a lock that is given up", path)
    holder.wait()
    folder, path = folder_with()
    holder = subprocess.Popen(["flock", path, "sleep", "30"], start_new_session=True)
    time.sleep(0.5)
    refuses("a lock that is kept", path, "another program holds a lock")
    os.killpg(holder.pid, signal.SIGTERM)
    holder.wait()
else:
    not_tried("locks of another", "there is no flock")

# ---- each call of the system that fails or is the last

def traced(what):
    return ["strace", "-f", "-q", "-o", "/dev/null", "-e", f"inject={what}"]

if shutil.which("strace") and subprocess.run([*traced("none:error=EIO"), "true"], capture_output=True).returncode == 0:
    for call, fault in [("fsync", "EIO"), ("rename", "EBUSY"), ("write", "ENOSPC"), ("fchmod", "EPERM"), ("flock", "ENOLCK")]:
        folder, path = folder_with()
        refuses(f"{call} with {fault}", path, "", before=traced(f"{call}:error={fault}:when=1" if call == "write" else f"{call}:error={fault}"))
    folder, path = folder_with()
    got = edit(path, before=traced("fsync:error=EIO:when=2"))
    judge(got[0] == 4 and "the edited text is in the file" in got[2] and read(path) == NEW and os.listdir(folder) == ["a.json"],
          f"a folder that is not seen to be on the disk: {got} {read(path)}")
    folder, path = folder_with()
    got = edit(path, "--copy", before=traced("pwrite64:error=EIO"))
    judge(got[0] == 4 and "the old text can't be put back" in got[2], f"a copy that can't be undone: {got}")
    folder, path = folder_with()
    edits("locks for what is open to be written alone", path, before=traced("flock:error=EBADF:when=1"))
    for call in ("pwrite64", "fsync"):
        folder, path = folder_with()
        refuses(f"a copy, {call} with EIO", path, "", "--copy", before=traced(f"{call}:error=EIO:when=1"))

    for more in ((), ("--copy",)):
        folder, path = folder_with()
        slow = start([*EDIT, *more, path], before=traced("flock:delay_exit=1500000"))
        time.sleep(0.7)
        with open(path, "ab") as it:
            it.write(b"[3]")
        got = end(slow)
        judge(got[0] in (0, 4) and read(path).endswith(b"[3]"), f"a change before the file is read {more}: {got} {read(path)}")

    folder, path = folder_with()
    slow = start([*EDIT, path], before=traced("fsync:delay_enter=1500000:when=1"))
    time.sleep(0.7)
    with open(path, "ab") as it:
        it.write(b"[3]")
    got = end(slow)
    judge(got[0] == 4 and "was changed while it was edited" in got[2] and read(path) == OLD + b"[3]"
          and os.listdir(folder) == ["a.json"], f"a change behind one's back: {got} {read(path)}")

    trace = f"{work}/trace"
    folder, path = folder_with()
    edits("an edit that is looked at", path, before=["strace", "-f", "-q", "-y", "-o", trace, "-e", "trace=rename,fsync"])
    calls = read(trace).decode()
    judge(re.search(r"fsync\(\d+<" + re.escape(folder) + r"/\.jpath-.*\n.*rename\(.*\n.*fsync\(\d+<" + re.escape(folder) + ">", calls),
          f"the file and then the folder are on the disk: {calls}")

    # a kill at each call, before it is made: the file is the old one or the new one, and the next edit leaves nothing beside
    names = ["statx", "openat", "flock", "read", "write", "fchmod", "fsync", "rename", "close"]
    kills = 0
    for call in names:
        for time_of in range(1, 30):
            folder, path = folder_with()
            got = edit(path, before=traced(f"{call}:signal=KILL:when={time_of}"))
            if got[0] >= 0:
                break
            kills += 1
            judge(read(path) in (OLD, NEW), f"killed at {call} {time_of}: {read(path)}")
            judge(set(os.listdir(folder)) - {"a.json"} == {it for it in os.listdir(folder) if it.startswith(".jpath-")},
                  f"killed at {call} {time_of}: {os.listdir(folder)}")
            edit(path)
            if read(path) != NEW or len(os.listdir(folder)) != 1:
                judge(False, f"the edit after a kill at {call} {time_of}: {os.listdir(folder)}")
    judge(kills > 10, f"only {kills} kills came")

    # another signal while the new file is written: the file is the old one, and the next edit leaves nothing beside; and a
    # signal that the shell has it ignore, as the page says
    for name in ("HUP", "INT", "QUIT", "TERM", "XFSZ"):
        folder, path = folder_with()
        got = edit(path, before=[*traced(f"fsync:signal={name}:when=1"), "env", f"--default-signal={name}"])
        judge(got[0] == -getattr(signal, f"SIG{name}") and read(path) == OLD, f"ended by {name}: {got}, {read(path)}")
        edits(f"the edit after {name}", path)
        judge(os.listdir(folder) == ["a.json"], f"the edit after {name} leaves {os.listdir(folder)}")
    ignoring = ["sh", "-c", "trap '' HUP INT QUIT TERM; exec \"$@\"", "sh"]
    for name in ("HUP", "INT", "QUIT", "TERM"):
        folder, path = folder_with()
        edits(f"{name} that is ignored", path, before=[*traced(f"fsync:signal={name}"), *ignoring])
        judge(os.listdir(folder) == ["a.json"], f"{name} that is ignored leaves {os.listdir(folder)}")
else:
    not_tried("calls that fail, kills and changes behind one's back", "strace is not there, or may not trace")

print(f"{passed} passed, {failed} failed")
sys.exit(failed > 0 or passed == 0)
TEXT
