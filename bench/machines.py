"""Machines that are namespaces of this one, for failover.py: each has its own network, processes and mounts, and stands
on one bridge. Three of them have GlusterFS, as docs/SCALING.md sets it up: a brick each, and the volume mounted on
the first two. Nothing of them has a name outside: they are gone with the process that began each.

A power cut takes a machine's network and then all its processes at once. What its kernel hadn't written to the disk
isn't lost with it, since the kernel is that of this machine."""
import ctypes
import os
import shutil
import signal
import subprocess
import time
from typing import Callable, Optional

NEEDS = {"glusterd": "glusterfs-server", "gluster": "glusterfs-server", "mount.glusterfs": "glusterfs-client",
         "nft": "nftables", "ip": "iproute2", "nsenter": "util-linux", "unshare": "util-linux", "setpriv": "util-linux",
         "pkill": "procps", "sysctl": "procps"}
NETWORK = "10.78.0."
OUTSIDE = NETWORK + "9"
VOLUME, MOUNT, BRICK = "registry", "/srv/registry", "/srv/brick"
JOURNAL = MOUNT + "/journal"
PORT = 8080
# whoever may speak to a registry: the front ends, which are here on the two machines and outside
REACH = """sysctl -qw net.ipv4.conf.all.route_localnet=1
nft -f - <<'RULES'
table ip registry {
    chain reach {
        type nat hook prerouting priority dstnat
        ip saddr { %s1, %s2, %s } tcp dport %d dnat to 127.0.0.1
    }
}
RULES
""" % (NETWORK, NETWORK, OUTSIDE, PORT)
# a machine whose kernel is silent for five seconds is gone for the others; one whose programs are slow isn't
OPTIONS = {
    "auth.allow": ",".join(NETWORK + str(n) for n in (1, 2, 3)),
    "network.ping-timeout": "30",
    "server.tcp-user-timeout": "5", "server.keepalive-time": "2", "server.keepalive-interval": "1",
    "server.keepalive-count": "3",
    "client.tcp-user-timeout": "5", "client.keepalive-time": "2", "client.keepalive-interval": "1",
    "client.keepalive-count": "3",
    # how often the bricks are looked over for what has to be healed
    "cluster.heal-timeout": "5",
}
# what a machine remembers of a file is no older than its last question
FRESH = {"performance.stat-prefetch": "off", "performance.quick-read": "off", "performance.io-cache": "off",
         "performance.open-behind": "off", "performance.read-ahead": "off", "performance.readdir-ahead": "off"}
FRESH_MOUNT = ["attribute-timeout=0", "entry-timeout=0", "negative-timeout=0"]
MOUNT_OPTIONS = ["backup-volfile-servers=" + ":".join(NETWORK + str(n) for n in (1, 2, 3))]
LIBC = ctypes.CDLL(None, use_errno=True)
NEW_NETWORK = 0x40000000


def lacking() -> list[str]:
    """What has to be installed or granted first."""
    places = os.environ["PATH"] + ":/usr/sbin:/sbin"
    packages = {package for name, package in NEEDS.items() if not shutil.which(name, path=places)}
    return sorted(packages) + ([] if os.getuid() == 0 else ["root's rights"]) + (
        [] if os.path.exists("/dev/fuse") else ["/dev/fuse"])


def run(words: list[str], seconds: float = 600) -> str:
    """What a command writes; it may fail, and a machine may lose its power meanwhile."""
    try:
        return subprocess.run(words, stdin=subprocess.DEVNULL, stdout=subprocess.PIPE, stderr=subprocess.STDOUT,
                              text=True, timeout=seconds, start_new_session=True).stdout
    except subprocess.TimeoutExpired:
        return ""


def begin(words: list[str]) -> subprocess.Popen:
    """A process that ends with this one, whatever ends this one."""
    return subprocess.Popen(["setpriv", "--pdeathsig", "KILL", *words], stdin=subprocess.DEVNULL,
                            stdout=subprocess.DEVNULL, stderr=subprocess.DEVNULL, start_new_session=True)


def await_file(path: str, seconds: float = 120) -> None:
    until = time.time() + seconds
    while not os.path.exists(path):
        if time.time() > until:
            raise OSError("a machine didn't start")
        time.sleep(0.02)


class Switch:
    """The bridge between the machines, with an address of its own: what is outside connects from there."""

    def __init__(self, place: str):
        up = os.path.join(place, "switch")
        self.process = begin(["unshare", "--net", "bash", "-c", "touch %s; exec sleep infinity" % up])
        await_file(up)
        self.run("ip link add br0 type bridge; ip link set br0 up; ip link set lo up")
        self.run("ip addr add %s/24 dev br0" % OUTSIDE)

    def run(self, command: str) -> str:
        return run(["nsenter", "-t", str(self.process.pid), "-n", "bash", "-c", command])

    def enter(self) -> None:
        """The thread that calls it has this network from then on."""
        file = os.open("/proc/%d/ns/net" % self.process.pid, os.O_RDONLY)
        try:
            if LIBC.setns(file, NEW_NETWORK):
                raise OSError(ctypes.get_errno(), "setns")
        finally:
            os.close(file)

    def end(self) -> None:
        self.process.kill()
        self.process.wait()


class Machine:
    """A machine with an address, whose brick and settings outlast its power."""

    def __init__(self, place: str, number: int, switch: Switch):
        self.number, self.switch, self.ip = number, switch, NETWORK + str(number)
        self.place = os.path.join(place, str(number))
        self.process: Optional[subprocess.Popen] = None
        self.first = 0
        for name in ("glusterd", "log", "brick"):
            os.makedirs(os.path.join(self.place, name))

    def boot(self) -> None:
        up = os.path.join(self.place, "up")
        if os.path.exists(up):
            os.remove(up)
        lines = ["mount --make-rprivate /", "mount -t tmpfs tmpfs /run", "mount -t tmpfs tmpfs /srv",
                 "mkdir -p /run/gluster %s %s /var/lib/glusterd /var/log/glusterfs" % (MOUNT, BRICK),
                 "mount --bind %s/brick %s" % (self.place, BRICK),
                 "mount --bind %s/glusterd /var/lib/glusterd" % self.place,
                 "mount --bind %s/log /var/log/glusterfs" % self.place,
                 # copies to far places aren't tried: their program, which glusterd asks a dozen times, answers at once
                 "printf '#!/bin/sh\necho gsyncd\n' > /run/gsyncd; chmod 755 /run/gsyncd",
                 "for known in /usr/lib/*/glusterfs/gsyncd; do mount --bind /run/gsyncd $known; done",
                 "hostname registry%d" % self.number, "touch " + up,
                 # the first process takes in those whose parents ended
                 "while :; do sleep 3600 & wait $!; done"]
        self.process = begin(["unshare", "--net", "--mount", "--pid", "--uts", "--ipc", "--fork", "--kill-child",
                              "--mount-proc", "bash", "-c", "\n".join(lines)])
        await_file(up)
        with open("/proc/{0}/task/{0}/children".format(self.process.pid)) as file:
            self.first = int(file.read().split()[0])
        self.plug_in()
        self.run(REACH)
        self.run("mkdir -p %s/registry; glusterd" % BRICK)

    def plug_in(self) -> None:
        self.switch.run("ip link add p{0} type veth peer name eth0 netns {1}; ip link set p{0} master br0; "
                        "ip link set p{0} up".format(self.number, self.first))
        self.run("ip link set lo up; ip addr add %s/24 dev eth0; ip link set eth0 up" % self.ip)

    def words(self, command: str) -> list[str]:
        return ["nsenter", "-t", str(self.first), "-m", "-p", "-u", "-i", "-n", "--", "bash", "-c", command]

    def run(self, command: str, seconds: float = 600) -> str:
        return run(self.words(command), seconds) if self.process else ""

    def start(self, command: str) -> None:
        begin(self.words(command))

    def network(self, is_on: bool) -> None:
        self.switch.run("ip link set p%d %s" % (self.number, "up" if is_on else "down"))

    def power_off(self) -> None:
        """The network first, so that nothing says good-bye; then all at once."""
        if self.process:
            self.network(False)
            if self.first:
                os.kill(self.first, signal.SIGKILL)
            self.process.kill()
            self.process.wait()
            self.process, self.first = None, 0
            self.switch.run("ip link del p%d" % self.number)


class Cluster:
    """Three machines with GlusterFS: a brick each, or an arbiter on the third, mounted on the first two, with strict
    locks or without, and free of caches or not."""

    def __init__(self, place: str, is_strict: bool, is_fresh: bool, has_arbiter: bool):
        self.copies = "replica 3 arbiter 1" if has_arbiter else "replica 3"
        self.options = {**OPTIONS, **(FRESH if is_fresh else {}), "client.strict-locks": "on" if is_strict else "off"}
        self.mount_options = MOUNT_OPTIONS + (FRESH_MOUNT if is_fresh else [])
        self.switch = Switch(place)
        self.machines = [Machine(place, number, self.switch) for number in (1, 2, 3)]
        self.hosts, self.third = self.machines[:2], self.machines[2]

    def begin(self) -> None:
        for machine in self.machines:
            machine.boot()
        first = self.machines[0]
        self.until(lambda: "success" in first.run("gluster peer probe %s2" % NETWORK))
        self.until(lambda: "success" in first.run("gluster peer probe %s3" % NETWORK))
        self.until(lambda: first.run("gluster peer status").count("Peer in Cluster (Connected)") == 2)
        bricks = " ".join("%s:%s/registry" % (machine.ip, BRICK) for machine in self.machines)
        self.gluster("volume create %s %s %s force" % (VOLUME, self.copies, bricks))
        self.gluster("volume set %s %s" % (VOLUME, " ".join("%s %s" % option for option in self.options.items())))
        self.gluster("volume start " + VOLUME)
        self.until(lambda: self.mounted(first))

    def gluster(self, words: str) -> None:
        """Sets something, again where a busy machine didn't answer in time."""
        def is_done() -> bool:
            told = self.machines[0].run("gluster --mode=script " + words)
            return "success" in told or "already" in told

        self.until(is_done)

    @staticmethod
    def until(is_so: Callable[[], bool], seconds: float = 600) -> None:
        until = time.time() + seconds
        while not is_so():
            if time.time() > until:
                raise OSError("the cluster didn't come up")
            time.sleep(0.5)

    def mount(self, machine: Machine) -> str:
        return "mount -t glusterfs -o %s %s:/%s %s" % (",".join(self.mount_options), machine.ip, VOLUME, MOUNT)

    def mounted(self, machine: Machine) -> bool:
        return "yes" in machine.run("mountpoint -q {0} || {1}; mountpoint -q {0} && echo yes".format(
            MOUNT, self.mount(machine)))

    def is_whole(self) -> bool:
        """Whether each brick is there and has all. What a brick notes of others that lack something is looked at first,
        since to ask is much work."""
        notes = [os.listdir(os.path.join(machine.place, "brick/registry/.glusterfs/indices/xattrop"))
                 for machine in self.machines]
        if any(not name.startswith("xattrop-") for names in notes for name in names):
            return False
        told = self.third.run("gluster volume heal %s info" % VOLUME, 60)
        return told.count("Status: Connected") == 3 and told.count("entries: 0") == 3

    def end(self) -> None:
        for machine in self.machines:
            machine.power_off()
        self.switch.end()
