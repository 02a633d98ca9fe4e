"""Octavia creates a load balancer: an address, two amphorae that boot side by side and are waited for by `Times`, and listeners.

The names are octavia's; what its tasks do with nova, neutron and the amphorae is told, and kept in files."""

import os
import tempfile

from taskflow import retry
from taskflow import task
from taskflow.patterns import graph_flow, linear_flow, unordered_flow

from telling import die_once, in_a_process, note, run


def count(name):
    """How often this was called with the name, this time counted: kept in a file, as nova keeps its servers."""
    with open(name, "a+") as file:
        file.write("x")
        file.seek(0)
        return len(file.read())


class AllocateVIP(task.Task):
    default_provides = "vip"

    def execute(self, loadbalancer_id):
        note("neutron: port for", loadbalancer_id)
        return {"ip_address": "10.0.0.7", "port_id": "port-1"}

    def revert(self, result, **kwargs):
        note("neutron: delete", result["port_id"])


class ComputeCreate(task.Task):
    def execute(self, role):
        note("nova: boot an amphora,", role)
        return "server-%s-%d" % (role, count("boots-" + role))

    def revert(self, result, role, **kwargs):
        note("nova: delete", result)


class ComputeWait(task.Task):
    """A server that isn't there yet fails this task; the retry controller boots another one."""

    def execute(self, compute_id, boots):
        number = int(compute_id.rpartition("-")[2])
        if number < boots:
            raise TimeoutError("%s is still building" % compute_id)
        return "192.0.2.%d" % number


class AmphoraPlugVIP(task.Task):
    def execute(self, addresses, vip):
        note("plug", vip["ip_address"], "into", *addresses)

    def revert(self, vip, **kwargs):
        note("unplug", vip["ip_address"])


class ListenerUpdate(task.Task):
    def execute(self, vip, port, broken_port, dies):
        if dies and port == 443:
            die_once("died")
        if port == broken_port:
            raise RuntimeError("haproxy refuses the configuration of port %d" % port)
        note("haproxy listens at", "%s:%d" % (vip["ip_address"], port))

    def revert(self, port, **kwargs):
        note("haproxy doesn't listen at", port)


class Gather(task.Task):
    default_provides = "addresses"

    def execute(self, master, backup):
        return [master, backup]


class MarkLBActive(task.Task):
    def execute(self, loadbalancer_id):
        note(loadbalancer_id, "is ACTIVE")


def amphora(role, boots):
    """Boots an amphora, three times at most."""
    names = {"role": role, "boots": boots}
    return linear_flow.Flow("amphora-" + role, retry=retry.Times(3, name="boot-" + role)).add(
        ComputeCreate("compute-create-" + role, inject=names, provides="compute-" + role),
        ComputeWait("compute-wait-" + role, inject=names, rebind={"compute_id": "compute-" + role}, provides="address-" + role))


def make_flow():
    flow = graph_flow.Flow("create-load-balancer")
    listeners = unordered_flow.Flow("listeners").add(
        *[ListenerUpdate("listener-%d" % port, inject={"port": port}) for port in (80, 443)])
    active, plug = MarkLBActive("mark-lb-active"), AmphoraPlugVIP("plug-vip")
    flow.add(AllocateVIP("allocate-vip"), amphora("master", 1), amphora("backup", 3),
             Gather("gather", rebind={"master": "address-master", "backup": "address-backup"}), plug, listeners, active)
    flow.link(plug, listeners)
    flow.link(listeners, active)
    return flow


def create(book, broken_port=0, dies=False):
    store = {"loadbalancer_id": "lb-1", "broken_port": broken_port, "dies": dies}
    run(make_flow(), store=store, book=book)


def main():
    os.chdir(tempfile.mkdtemp())
    in_a_process("A load balancer is created; the second amphora is there at its third boot.", create, "one.book")
    for name in ("boots-master", "boots-backup"):
        os.unlink(name)
    in_a_process("A listener fails: all is undone.", create, "two.book", 443)
    for name in ("boots-master", "boots-backup"):
        os.unlink(name)
    in_a_process("The process is killed at the second listener,", create, "three.book", 0, True)
    in_a_process("and another goes on: no amphora is booted again.", create, "three.book", 0, True)


main()
