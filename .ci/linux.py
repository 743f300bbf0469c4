"""Makes the Unix calls of a script on the Linux kernel, each by a real process, and returns the replies in histar's form.

Process 0 is forked by this program, and every other process by its parent, where the script says `spawn`. A process has the real and effective ids
of its user, and the ids of that user's groups as supplementary groups; nobody is 65534. `/` is a fresh directory of a tmpfs that belongs to the first
user, and the root directory of all processes. This needs root, be it of a user namespace, as `reason_against` says.

    mode        file, directory
    private     0600, 0700
    readable    0644, 0755
    open        0666, 0777      Linux keeps the owner, and histar has none: a `stat` is written `- open` all the same
    group:NAME  0660, 0770      made with 0600, given to the group by chgrp, then opened; removed again where chgrp is refused

In each mode the permissions to read and to search go together, since histar's walk reads the directories that Linux's walk searches. Some calls
have no system call of the same name:

    login   This program keeps the passwords. Each process keeps 0 as its saved user id, by which it becomes another user. The saved id changes no
            reply: the effective capabilities are empty, and kill compares the caller's real and effective ids with the target's real and saved ones.
    status  The parent looks by waitid with WNOWAIT. Another process looks at the state in /proc, and sees no exit status: `ok exited ?`.
    kill    SIGKILL. A parent then waits for its child, so that no zombie is left.
    exit    This program reaps the children of processes that have exited, as init does.
    rmtree  rmdir or unlink, and where a directory isn't empty first all that is in it. It goes on behind a refusal, and answers the first one.
    wrap    There is none: the reply is `no counterpart`.

A file is limited to 4,096 bytes by RLIMIT_FSIZE. The other limits have no counterpart. FLAGS are: `root0` gives the user root the id 0, `sticky`
gives open directories the mode 1777, and `noreplace` renames by renameat2 with RENAME_NOREPLACE.
"""
import ctypes
import errno
import os
import resource
import select
import shutil
import signal
import socket
import stat
import tempfile
import traceback

FLAGS = {"root0", "sticky", "noreplace"}
NOBODY, FIRST_USER, FIRST_GROUP = 65534, 1000, 3000
MODES = {"private": 0o600, "readable": 0o644, "open": 0o666, "group": 0o660}
NAMES = {bits: name for name, bits in MODES.items()}
# The calls with two arguments, of which the last may have spaces.
OF_TWO_WORDS = {"create", "mkdir", "write", "append", "rename", "login"}
# A number above every process id of the kernel, so that the kernel itself says that there is no such process.
NO_PROCESS = 4194304
MOST_BYTES, MOST_OF_A_MESSAGE = 4096, 65536
SHARED = "/dev/shm"
# chown, dac_override, fowner, kill, setgid, setuid and sys_chroot, by their numbers in linux/capability.h.
CAPABILITIES = sum(1 << number for number in (0, 1, 3, 5, 6, 7, 18))
PR_SET_CHILD_SUBREAPER, AT_FDCWD, RENAME_NOREPLACE = 36, -100, 1
LIBC = ctypes.CDLL(None, use_errno=True)


def has_ids(path):
    """Returns whether a map of ids has those of all users and groups, and of nobody."""
    with open(path, encoding="ascii") as file:
        ranges = [(int(first), int(count)) for first, _, count in map(str.split, file)]
    return any(first <= FIRST_USER and first + count > NOBODY for first, count in ranges)


def reason_against():
    """Returns why this process can't make the calls, or an empty text where it can."""
    if not (hasattr(os, "pidfd_open") and hasattr(socket, "send_fds") and os.path.isdir(SHARED)):
        return f"Linux 5.3, Python 3.9 and {SHARED} are needed"
    with open("/proc/self/status", encoding="ascii") as file:
        effective = next(int(line.split()[1], 16) for line in file if line.startswith("CapEff:"))
    if os.geteuid() != 0 or effective & CAPABILITIES != CAPABILITIES:
        return "root is needed, or newuidmap and 65,536 subordinate ids"
    if not (has_ids("/proc/self/uid_map") and has_ids("/proc/self/gid_map")):
        return "the user namespace lacks some of the ids up to 65534"
    return ""


class Script:
    """The users, the groups and the calls of a script that histar accepts."""

    def __init__(self, text, flags):
        self.flags = flags
        self.passwords, self.uids, self.gids, self.members, self.calls = {}, {"nobody": NOBODY}, {}, {}, []
        for number, line in enumerate(text.split("\n"), 1):
            if line and not line.startswith("#"):
                self.read(number, *(line.split(" ", 2) + [""])[:3])
        self.users = {uid: user for user, uid in self.uids.items()}
        self.groups = {gid: group for group, gid in self.gids.items()}

    def read(self, number, word, name, rest):
        """Takes in a line by its first two words and the rest."""
        if word == "user":
            self.uids[name] = 0 if name == "root" and "root0" in self.flags else FIRST_USER + len(self.passwords)
            self.passwords[name] = rest
        elif word == "group":
            self.gids[name] = FIRST_GROUP + len(self.gids)
            self.members[name] = rest.split(" ")
        else:
            self.calls.append((number, word, name, rest))

    def directory_bits(self, bits):
        """Returns the mode of a directory where a file has these bits: whoever may read it may search it."""
        is_sticky = bits == MODES["open"] and "sticky" in self.flags
        return bits | (bits & 0o444) >> 2 | stat.S_ISVTX * is_sticky

    def owner_and_mode(self, info):
        """Returns how histar's `stat` writes the owner and the mode of an entry."""
        mode = NAMES[info.st_mode & 0o666]
        if mode == "open":
            return "- open"
        return f"- group:{self.groups[info.st_gid]}" if mode == "group" else f"{self.users[info.st_uid]} {mode}"

    def become(self, user):
        """Gives the calling process the ids of a user, with 0 as its saved user id."""
        uid = self.uids[user]
        os.seteuid(0)
        os.setgroups([self.gids[group] for group, members in self.members.items() if user in members])
        os.setresgid(uid, uid, uid)
        os.setresuid(uid, uid, 0)


def make_file(path, bits):
    os.close(os.open(path, os.O_CREAT | os.O_EXCL | os.O_WRONLY, bits))


def write_file(path, flag, text):
    """Opens a file for writing with one more flag, and writes all bytes of a text."""
    with open(path, "wb", buffering=0, opener=lambda name, _: os.open(name, os.O_WRONLY | flag)) as file:
        left = text.encode()
        while left:
            left = left[file.write(left):]


def remove_if_empty(path):
    """Removes a directory, and returns whether it was empty."""
    try:
        os.rmdir(path)
    except OSError as refusal:
        if refusal.errno != errno.ENOTEMPTY:
            raise
        return False
    return True


def remove_tree(path):
    """Removes an entry with all below it, as far as it may, and returns the refusals."""
    try:
        if not stat.S_ISDIR(os.lstat(path).st_mode):
            os.unlink(path)
        elif not remove_if_empty(path):
            refusals = [each for name in sorted(os.listdir(path)) for each in remove_tree(os.path.join(path, name))]
            if refusals:
                return refusals
            os.rmdir(path)
    except OSError as refusal:
        return [refusal]
    return []


class Process:
    """What a process of the script does in itself: it answers the calls that come by its channel."""

    def __init__(self, script, channel, proc):
        self.script, self.channel, self.proc = script, channel, proc

    def serve(self):
        """Answers calls until the process exits, or nobody is left to ask."""
        while True:
            message, descriptors, _, _ = socket.recv_fds(self.channel, MOST_OF_A_MESSAGE, 1)
            call, _, rest = message.decode().partition(" ")
            if not call:
                os._exit(0)
            words = rest.split(" ", 1) if call in OF_TWO_WORDS else [rest] if rest else []
            try:
                reply = getattr(self, call)(*descriptors, *words) or "ok"
            except OSError as refusal:
                reply = errno.errorcode[refusal.errno]
            self.channel.send(reply.encode())
            if call == "exit":
                os._exit(int(words[0]))

    def make(self, path, mode, calls, bits_of):
        """Makes an entry by the first of two calls; where the group is refused, removes it again by the second."""
        making, removing = calls
        name, _, group = mode.partition(":")
        making(path, bits_of(MODES["private" if group else name]))
        if group:
            try:
                os.chown(path, -1, self.script.gids[group])
            except OSError:
                removing(path)
                raise
            os.chmod(path, bits_of(MODES["group"]))

    def create(self, path, mode):
        self.make(path, mode, (make_file, os.unlink), lambda bits: bits)

    def mkdir(self, path, mode):
        self.make(path, mode, (os.mkdir, os.rmdir), self.script.directory_bits)

    def read(self, path):
        descriptor = os.open(path, os.O_RDONLY)
        try:
            return "= " + os.read(descriptor, MOST_BYTES).decode()
        finally:
            os.close(descriptor)

    def write(self, path, text):
        write_file(path, os.O_TRUNC, text)

    def append(self, path, text):
        write_file(path, os.O_APPEND, text)

    def list(self, path):
        with os.scandir(path) as entries:
            names = sorted((entry.name, "/" * entry.is_dir()) for entry in entries)
        return " ".join(["ok"] + [name + slash for name, slash in names])

    def stat(self, path):
        info = os.stat(path)
        return f"ok {'dir' if stat.S_ISDIR(info.st_mode) else 'file'} {self.script.owner_and_mode(info)}"

    def unlink(self, path):
        os.unlink(path)

    def rmdir(self, path):
        os.rmdir(path)

    def rmtree(self, path):
        for refusal in remove_tree(path):
            raise refusal

    def rename(self, path, name):
        new = os.path.join(os.path.dirname(path), name)
        flags = RENAME_NOREPLACE * ("noreplace" in self.script.flags)
        if LIBC.renameat2(AT_FDCWD, path.encode(), AT_FDCWD, new.encode(), flags):
            raise OSError(ctypes.get_errno(), "renameat2")

    def spawn(self, descriptor):
        """Forks; the child answers by another channel, whose descriptor came with the call."""
        child = os.fork()
        if child == 0:
            self.channel.close()
            self.channel = socket.socket(fileno=descriptor)
            self.serve()
        os.close(descriptor)
        return str(child)

    def exit(self, _number):
        """Leaves it to `serve` to end the process, once it has replied."""

    def status(self, pid):
        try:
            end = os.waitid(os.P_PID, int(pid), os.WEXITED | os.WNOHANG | os.WNOWAIT)
            if end is None:
                return "ok running"
            return f"ok {'exited' if end.si_code == os.CLD_EXITED else 'killed'} {end.si_status}"
        except ChildProcessError:
            return self.status_of_a_stranger(pid)

    def status_of_a_stranger(self, pid):
        try:
            with open(f"{pid}/stat", "rb", opener=lambda path, flags: os.open(path, flags, dir_fd=self.proc)) as file:
                state = file.read().rpartition(b")")[2].split()[0]
        except FileNotFoundError:
            return "ESRCH"
        return "ok exited ?" if state in (b"Z", b"X") else "ok running"

    def kill(self, pid):
        os.kill(int(pid), signal.SIGKILL)
        try:
            os.waitpid(int(pid), 0)
        except ChildProcessError:
            pass  # The caller isn't its parent.

    def whoami(self):
        return f"ok {self.script.users[os.geteuid()]}"

    def login(self, user, password):
        if user not in self.script.passwords:
            return "ENOENT"
        if self.script.passwords[user] != password:
            return "EAUTH"
        self.script.become(user)


def pair_of_channels():
    return socket.socketpair(socket.AF_UNIX, socket.SOCK_SEQPACKET)


class Machine:
    """The processes of a script, seen from outside, and their directory."""

    def __init__(self, script):
        self.script, self.born, self.channels, self.pids, self.ends = script, {}, {}, {}, {}
        LIBC.prctl(PR_SET_CHILD_SUBREAPER, 1, 0, 0, 0)
        self.top = tempfile.mkdtemp(dir=SHARED)
        owner = script.uids[next(iter(script.passwords))]
        os.chown(self.top, owner, owner)
        os.chmod(self.top, 0o755)
        ours, theirs = pair_of_channels()
        pid = os.fork()
        if pid == 0:
            try:
                ours.close()
                self.begin(theirs)
            except BaseException:
                traceback.print_exc()
            os._exit(1)
        theirs.close()
        self.enter("0", pid, ours)

    def begin(self, channel):
        """Is process 0."""
        os.umask(0)
        proc = os.open("/proc", os.O_PATH)
        os.chroot(self.top)
        os.chdir("/")
        resource.setrlimit(resource.RLIMIT_FSIZE, (MOST_BYTES, MOST_BYTES))
        self.script.become("nobody")
        Process(self.script, channel, proc).serve()

    def enter(self, name, pid, channel):
        self.born[name], self.channels[name], self.pids[name], self.ends[name] = 0, channel, pid, os.pidfd_open(pid)

    def number_of(self, name):
        """Returns the id of a process, and no process's once that one is reaped, since the kernel gives an id again."""
        try:
            signal.pidfd_send_signal(self.ends[name], 0)
        except (KeyError, ProcessLookupError):
            return NO_PROCESS
        return self.pids[name]

    def is_running(self, name):
        return name in self.ends and not select.select([self.ends[name]], [], [], 0)[0]

    def wait_for(self, name):
        """Waits for the end of a process, and reaps the processes that have no other parent."""
        select.select([self.ends[name]], [], [])
        try:
            while os.waitpid(-1, os.WNOHANG)[0]:
                pass
        except ChildProcessError:
            pass  # Nothing is left to reap.

    def call(self, name, call, argument):
        """Returns the reply to a call of a process."""
        if not self.is_running(name):
            return "gone"
        if call == "wrap":
            return "no counterpart"
        if call == "spawn":
            return self.spawn(name)
        target = self.number_of(argument) if call in ("status", "kill") else argument
        self.channels[name].send(f"{call} {target}".encode())
        # A process that killed itself sends nothing.
        reply = self.channels[name].recv(MOST_OF_A_MESSAGE).decode() or "ok"
        if call in ("exit", "kill") and reply == "ok":
            self.wait_for(name if call == "exit" else argument)
        return reply

    def spawn(self, name):
        ours, theirs = pair_of_channels()
        socket.send_fds(self.channels[name], [b"spawn"], [theirs.fileno()])
        theirs.close()
        pid = int(self.channels[name].recv(MOST_OF_A_MESSAGE))
        self.born[name] += 1
        child = f"{name}.{self.born[name]}"
        self.enter(child, pid, ours)
        return f"ok {child}"

    def close(self):
        """Ends all processes and removes the directory."""
        for name, end in self.ends.items():
            if self.is_running(name):
                signal.pidfd_send_signal(end, signal.SIGKILL)
            self.channels[name].close()
        for name, end in self.ends.items():
            self.wait_for(name)
            os.close(end)
        shutil.rmtree(self.top)


def replies_of(text, flags):
    """Runs a script with some flags, and returns the replies by the numbers of their lines."""
    machine = Machine(Script(text, flags))
    try:
        return {number: machine.call(*words) for number, *words in machine.script.calls}
    finally:
        machine.close()
