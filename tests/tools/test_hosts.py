"""`many` on two hosts that are logins to this machine: two servers of ssh with keys of their own."""
import getpass
import os
import random
import shutil
import socket
import subprocess
import sys
import time
import unittest

from helping import TOOL, Case, Slow, ask, needs, needs_program, program, random_ba
from rabit_tool import results

SSHD = shutil.which("sshd", path=os.environ.get("PATH", "") + ":/usr/sbin:/usr/local/sbin")
# root's server takes a folder of the system, and a name for the host: it gets both in namespaces that end with it
ALONE = "mount -t tmpfs none /run && mkdir -m 755 /run/sshd && hostname {name} && exec {sshd} -D -f {config} -E {log}"
SERVER = """ListenAddress 127.0.0.1
Port {port}
HostKey {folder}/{name}.host
AuthorizedKeysFile {folder}/key.pub
PidFile none
StrictModes no
UsePAM no
PasswordAuthentication no
KbdInteractiveAuthentication no
PermitRootLogin prohibit-password
"""
CLIENT = """Host {name}
    HostName 127.0.0.1
    Port {port}
    HostKeyAlias {name}
    User {user}
    IdentityFile {folder}/key
    IdentitiesOnly yes
    UserKnownHostsFile {folder}/known
    StrictHostKeyChecking yes
    BatchMode yes
    ConnectTimeout 5
"""


def can_be_alone():
    """Whether a process may have a host name and mounts of its own here."""
    words = ["unshare", "--mount", "--uts", "hostname", "one"]
    if not shutil.which("unshare"):
        return False
    return subprocess.run(words, stderr=subprocess.DEVNULL, check=False).returncode == 0


def free_port():
    """The number of a port that nobody listens on now."""
    with socket.socket() as found:
        found.bind(("127.0.0.1", 0))
        return found.getsockname()[1]


def answers(port):
    """Whether a server of ssh greets at the port."""
    try:
        with socket.create_connection(("127.0.0.1", port), 2) as connection:
            return connection.recv(4) == b"SSH-"
    except OSError:
        return False


@unittest.skipUnless(SSHD, "sshd is not installed (Debian: openssh-server)")
@needs("ssh", "openssh-client")
@needs("parallel")
@needs_program
@unittest.skipIf(os.geteuid() == 0 and not can_be_alone(), "root may not make namespaces here (unshare)")
class Hosts(Case):
    def setUp(self):
        super().setUp()
        self.make_key("key")
        self.servers = {name: self.started(name) for name in ("one", "two")}
        words = ["ssh", "-F", str(self.folder / "client"), "one", "true"]
        login = subprocess.run(words, stdin=subprocess.DEVNULL, stderr=subprocess.PIPE, text=True, check=False)
        if login.returncode:
            self.skipTest(f"this user may not log in by ssh: {login.stderr.strip()}")

    def make_key(self, name):
        """Makes a pair of keys, and gives the public one's text."""
        path = self.folder / name
        subprocess.run(["ssh-keygen", "-q", "-t", "ed25519", "-N", "", "-f", str(path)], check=True)
        return path.with_name(f"{name}.pub").read_text()

    def started(self, name):
        """A server of this name, a process that listens, and what a client needs to find it."""
        known = self.make_key(f"{name}.host")
        for _ in range(5):
            facts = {"name": name, "port": free_port(), "folder": self.folder, "user": getpass.getuser()}
            config, log = self.write(f"{name}.server", SERVER.format(**facts)), self.folder / f"{name}.log"
            words = [SSHD, "-D", "-f", str(config), "-E", str(log)]
            if os.geteuid() == 0:
                alone = ALONE.format(name=name, sshd=SSHD, config=config, log=log)
                words = ["unshare", "--mount", "--uts", "sh", "-c", alone]
            process = subprocess.Popen(words, stdin=subprocess.DEVNULL)
            self.addCleanup(self.stop, process)
            until = time.monotonic() + 10
            while process.poll() is None and time.monotonic() < until:
                if answers(facts["port"]):
                    for file, text in (("client", CLIENT.format(**facts)), ("known", f"{name} {known}")):
                        with open(self.folder / file, "a", encoding="utf-8") as kept:
                            kept.write(text)
                    return process
                time.sleep(0.05)
            self.stop(process)
        self.fail(f"sshd does not come up: {log.read_text() if log.exists() else 'no log'}")

    def stop(self, process):
        process.terminate()
        process.wait(10)

    def questions(self, name, count, seed):
        """A list of so many questions, and its path."""
        rnd, lines = random.Random(seed), []
        for number in range(count):
            first, second = (self.write(f"{name}-{number}-{side}.ba", random_ba(rnd, 6, "ab")) for side in (1, 2))
            lines.append(f"{first} {second}")
        return lines, self.write(name, "\n".join(lines) + "\n")

    def many(self, path, *words):
        """The process of `many` on both hosts, which has begun."""
        hosts, ssh = self.write("hosts", "2/one\n2/two\n"), f"ssh -F {self.folder}/client"
        words = [sys.executable, TOOL, "many", path, "--hosts", hosts, "--ssh", ssh, *words]
        return subprocess.Popen(list(map(str, words)), stderr=subprocess.PIPE)

    def asked(self, name, count, seed):
        """Asks so many questions on both hosts, and gives the names of those that answered, once all is found right."""
        lines, path = self.questions(name, count, seed)
        out = self.folder / f"{name}.out"
        process = self.many(path, "--out", out, "--together", 4, "--second", "--program", program())
        told = process.communicate(timeout=60)[1]
        self.assertEqual(process.returncode, 0, told)
        rows = results.loaded(str(out))[0].rows
        for number, line in enumerate(lines, 1):
            status, printed = ask("include", *line.split(), self.folder / "c")
            row = rows[number]
            self.assertEqual((row["status"], row["verdict"]), (str(status), printed.split("\n")[0]))
            self.assertEqual((row["check"], row["second check"]), ("accepted", "accepted"))
            self.assertEqual((out / "certificates" / f"{number}.cert").read_bytes(), (self.folder / "c").read_bytes())
        self.assertEqual(len(rows), count)
        return [row["host"] for row in rows.values()]

    def logins(self, name):
        """How many logins the log of the server tells of."""
        return (self.folder / f"{name}.log").read_text().count("Accepted publickey for ")

    def test_two_hosts_and_one_that_goes_down(self):
        hosts = self.asked("both", 24, 71)
        before = {name: self.logins(name) for name in self.servers}
        self.assertTrue(min(before.values()) > 1, before)
        if os.geteuid() == 0:
            self.assertEqual(set(hosts), {"one", "two"})
        self.stop(self.servers["two"])
        hosts = self.asked("rest", 8, 72)
        self.assertGreater(self.logins("one"), before["one"])
        self.assertEqual(self.logins("two"), before["two"])
        if os.geteuid() == 0:
            self.assertEqual(set(hosts), {"one"})

    def test_a_run_that_is_stopped_leaves_nothing_on_the_hosts(self):
        path, slow = self.questions("stopped", 4, 73)[1], Slow(self)
        process = self.many(path, "--out", self.folder / "out", "--program", slow.path)
        slow.wait_for(4)
        process.terminate()
        process.communicate(timeout=90)
        self.assertEqual(process.returncode, 130)
        slow.check_gone()


if __name__ == "__main__":
    unittest.main()
