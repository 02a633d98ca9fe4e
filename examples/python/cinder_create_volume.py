"""Cinder creates a volume: the flow of its API, and within it the one of the host that makes the volume.

The names are cinder's; what its tasks do in a database and on a host is told, and kept in a file."""

import json
import os
import tempfile

from taskflow import task
from taskflow.patterns import linear_flow

from telling import die_once, in_a_process, note, run


class Database:
    """Volumes by their ids, in a file."""

    def __init__(self, path):
        self._path = path

    def rows(self):
        if not os.path.exists(self._path):
            return {}
        with open(self._path) as file:
            return json.load(file)

    def put(self, volume_id, **columns):
        rows = self.rows()
        rows[volume_id] = dict(rows.get(volume_id, {}), **columns)
        self._write(rows)

    def delete(self, volume_id):
        rows = self.rows()
        rows.pop(volume_id, None)
        self._write(rows)

    def _write(self, rows):
        with open(self._path, "w") as file:
            json.dump(rows, file)


DATABASE = Database("volumes.json")


class ExtractVolumeRequestTask(task.Task):
    default_provides = {"size", "availability_zone", "volume_type"}

    def execute(self, raw_size, raw_zone, raw_type):
        if raw_size <= 0:
            raise ValueError("size %s" % raw_size)
        return {"size": raw_size, "availability_zone": raw_zone or "nova", "volume_type": raw_type}


class QuotaReserveTask(task.Task):
    default_provides = "reservations"

    def execute(self, size, volume_type):
        note("reserve", size, "GB of", volume_type)
        return ["gigabytes-%d" % size, "volumes-1"]

    def revert(self, result, **kwargs):
        note("roll back", result)


class EntryCreateTask(task.Task):
    default_provides = {"volume_id", "volume_properties"}

    def execute(self, size, availability_zone, volume_type):
        volume_id = "vol-%d" % (len(DATABASE.rows()) + 1)
        DATABASE.put(volume_id, size=size, status="creating", zone=availability_zone)
        note("insert", volume_id)
        return {"volume_id": volume_id, "volume_properties": {"size": size, "type": volume_type}}

    def revert(self, result, **kwargs):
        note("delete", result["volume_id"])
        DATABASE.delete(result["volume_id"])


class QuotaCommitTask(task.Task):
    def execute(self, reservations):
        note("commit", reservations)

    def revert(self, size, **kwargs):
        note("give back", size, "GB")


class ExtractVolumeSpecTask(task.Task):
    default_provides = "volume_spec"

    def execute(self, volume_id, volume_properties):
        return dict(volume_properties, type="raw", name="volume-" + volume_id)


class CreateVolumeFromSpecTask(task.Task):
    """The host's driver makes the volume. It may have made it before: a process that died can't tell."""

    default_provides = "provider_location"

    def execute(self, volume_spec, host_is_full, dies):
        note("lvcreate", volume_spec["name"], volume_spec["size"], "GB")
        if dies:
            die_once("died")
        if host_is_full:
            raise OSError("no space left on the host")
        return "iscsi://host-1/" + volume_spec["name"]

    def revert(self, volume_spec, **kwargs):
        note("lvremove", volume_spec["name"])


class CreateVolumeOnFinishTask(task.Task):
    def execute(self, volume_id, provider_location):
        DATABASE.put(volume_id, status="available", location=provider_location)


def make_flow():
    manager = linear_flow.Flow("volume_create_manager").add(
        ExtractVolumeSpecTask("ExtractVolumeSpecTask;volume:create"),
        CreateVolumeFromSpecTask("CreateVolumeFromSpecTask;volume:create"),
        CreateVolumeOnFinishTask("CreateVolumeOnFinishTask;volume:create"))
    return linear_flow.Flow("volume_create_api").add(
        ExtractVolumeRequestTask("ExtractVolumeRequestTask;volume:create"),
        QuotaReserveTask("QuotaReserveTask;volume:create"),
        EntryCreateTask("EntryCreateTask;volume:create"),
        QuotaCommitTask("QuotaCommitTask;volume:create"),
        manager)


def create(book, host_is_full=False, dies=False):
    store = {"raw_size": 10, "raw_zone": None, "raw_type": "ssd", "host_is_full": host_is_full, "dies": dies}
    run(make_flow(), store=store, book=book)
    print("volumes:", DATABASE.rows())


def main():
    os.chdir(tempfile.mkdtemp())
    in_a_process("A volume is created.", create, "one.book")
    in_a_process("The host is full: all is undone.", create, "two.book", True)
    in_a_process("The process is killed while the host makes the volume,", create, "three.book", False, True)
    in_a_process("and another goes on.", create, "three.book", False, True)


main()
