"""An Open vSwitch in user space, with a folder, a database and ports of its own."""
import json
import os
import re
import shutil
import socket
import subprocess
import tempfile
import time
from pathlib import Path

from parts.script import Mistake

TOOLS = "ovsdb-tool ovsdb-server ovs-vswitchd ovs-vsctl ovs-ofctl".split()
SCHEMA = "/usr/share/openvswitch/vswitch.ovsschema"
DUMMY = ("type=dummy",)
PATIENCE = 60.0  # seconds until a daemon is there


class Failed(Mistake):
    """A tool of Open vSwitch failed, or isn't there; the message says which, and why."""

    status = 3


def missing_tool():
    """A tool that isn't installed, or none."""
    return next((tool for tool in TOOLS if shutil.which(tool) is None), None)


def bridge_args(bridge, ports):
    """The arguments of ovs-vsctl that add a bridge, and its ports with their settings."""
    args = ["--", "add-br", bridge, "--", "set", "bridge", bridge, "datapath_type=dummy"]
    args += ["fail-mode=secure"]
    for port, settings in ports.items():
        args += ["--", "add-port", bridge, port, "--", "set", "interface", port, *settings]
    return args


class OpenVSwitch:
    """It runs within a `with`, and ends with it; its folder is then gone."""

    def __enter__(self):
        self.home = tempfile.TemporaryDirectory(prefix="ovs-", ignore_cleanup_errors=True)
        self.folder, self.started, self.control, self.heard = self.home.name, [], None, ""
        places = dict.fromkeys(("OVS_RUNDIR", "OVS_LOGDIR", "OVS_DBDIR"), self.folder)
        self.env = {**os.environ, **places}
        try:
            self.begin()
        except BaseException:
            self.__exit__()
            raise
        return self

    def __exit__(self, *_):
        if self.control:
            self.control.close()
        for process in reversed(self.started):
            process.terminate()
            process.wait()
        self.home.cleanup()

    def begin(self):
        if tool := missing_tool():
            raise Failed(f"{tool} isn't installed (Debian: openvswitch-switch)")
        self.run("ovsdb-tool", "create", "conf.db", SCHEMA)
        self.start("ovsdb-server", "conf.db", "--remote=punix:db.sock")
        self.await_file("db.sock")
        self.configure("--no-wait", "init")
        self.start("ovs-vswitchd", "unix:db.sock", "--enable-dummy=override", "--disable-system")

    def start(self, name, *args):
        """Starts a daemon in a session of its own, so that Ctrl-C doesn't end it."""
        own = [f"--unixctl={self.folder}/{name}.ctl", f"--log-file={self.folder}/{name}.log"]
        pipes = dict.fromkeys(("stdin", "stdout", "stderr"), subprocess.DEVNULL)
        process = subprocess.Popen(
            [name, *args, *own], cwd=self.folder, env=self.env, start_new_session=True, **pipes
        )
        self.started.append(process)

    def await_file(self, name):
        until = time.monotonic() + PATIENCE
        while not Path(self.folder, name).exists():
            if time.monotonic() > until or self.started[-1].poll() is not None:
                raise Failed(f"{self.started[-1].args[0]} doesn't start")
            time.sleep(0.01)

    def run(self, *args):
        """What a tool prints."""
        done = subprocess.run(args, cwd=self.folder, env=self.env, capture_output=True, text=True)
        if done.returncode:
            raise Failed(f"{args[0]} {args[1]} failed: {done.stderr.strip()}")
        return done.stdout

    def configure(self, *args):
        self.run("ovs-vsctl", f"--db=unix:{self.folder}/db.sock", "--timeout=120", "--retry", *args)

    def add(self, bridge, flows):
        Path(self.folder, "flows.txt").write_text("".join(f"{flow}\n" for flow in flows))
        self.run("ovs-ofctl", "add-flows", bridge, "flows.txt")

    def left_by(self, bridge):
        """How many packets left by each port of a bridge."""
        told = self.run("ovs-ofctl", "--names", "dump-ports", bridge)
        pairs = re.findall(r"port +\"?([\w-]+)\"?: .*\n *tx pkts=(\d+)", told)
        return {port: int(count) for port, count in pairs}

    def ask(self, method, *args):
        """What ovs-vswitchd answers to a command of ovs-appctl, without starting that."""
        if self.control is None:
            self.control = socket.socket(socket.AF_UNIX)
            self.control.connect(f"{self.folder}/ovs-vswitchd.ctl")
        self.control.sendall(json.dumps({"id": 0, "method": method, "params": args}).encode())
        while True:
            try:
                reply, end = json.JSONDecoder().raw_decode(self.heard)
                break
            except ValueError:
                self.heard += self.listen()
        self.heard = self.heard[end:].lstrip()
        if reply["error"]:
            raise Failed(f"{method} failed: {reply['error'].strip()}")
        return reply["result"]

    def listen(self):
        heard = self.control.recv(1 << 16)
        if not heard:
            raise Failed("ovs-vswitchd ended")
        return heard.decode()
