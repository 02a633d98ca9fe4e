"""Glance imports an image: it is fetched from the web, checked, converted where it has to be, and put into each store.

The names are glance's. Whether the image is converted is decided by a test of its format, and whether its signature is looked at by a function."""

import hashlib
import os
import tempfile

from taskflow import task
from taskflow.patterns import graph_flow, linear_flow
from verified_taskflow import test

from telling import die_once, in_a_process, note, run


class ImageLock(task.Task):
    def execute(self, image_id):
        note("lock", image_id)

    def revert(self, image_id, **kwargs):
        note("unlock", image_id)


class WebDownload(task.Task):
    """Fetches the image to the staging area."""

    default_provides = "staged"

    def execute(self, image_id, uri):
        note("fetch", uri)
        with open(image_id + ".staged", "wb") as file:
            file.write(b"QFI\xfb" if uri.endswith("qcow2") else b"RAW.")
        return image_id + ".staged"

    def revert(self, result, **kwargs):
        note("delete", result)
        os.unlink(result)


class InspectImage(task.Task):
    default_provides = "image_format"

    def execute(self, staged):
        with open(staged, "rb") as file:
            return "qcow2" if file.read(4) == b"QFI\xfb" else "raw"


class ConvertImage(task.Task):
    """Leaves a raw image in the place of the other. It does no harm where it is done twice."""

    def execute(self, staged):
        note("qemu-img convert", staged)
        with open(staged, "wb") as file:
            file.write(b"RAW!")


class VerifySignature(task.Task):
    def execute(self, staged):
        note("verify", staged)


class ImportToStore(task.Task):
    def execute(self, image_id, staged, backend, full_store, dies):
        if backend == "ceph" and dies:
            die_once("died")
        if backend == full_store:
            raise OSError("the store %s is full" % backend)
        note("copy to", backend)
        with open(staged, "rb") as file:
            return "%s://%s?%s" % (backend, image_id, hashlib.sha256(file.read()).hexdigest()[:8])

    def revert(self, backend, **kwargs):
        note("delete from", backend)


class SaveImage(task.Task):
    def execute(self, image_id, **locations):
        note(image_id, "is active at", *[locations[name] for name in sorted(locations)])


def make_flow(stores):
    lock, download, inspect = ImageLock("lock"), WebDownload("web-download"), InspectImage("inspect")
    convert, verify = ConvertImage("convert"), VerifySignature("verify")
    copies = linear_flow.Flow("stores").add(
        *[ImportToStore("import-to-" + name, inject={"backend": name}, provides="location-" + name) for name in stores])
    save = SaveImage("save", requires=["location-" + name for name in stores])
    flow = graph_flow.Flow("import-image").add(lock, download, inspect, convert, verify, copies, save)
    flow.link(lock, download)
    flow.link(inspect, convert, decider=test(equals="raw", not_=True), decider_depth="atom")
    flow.link(inspect, verify, decider=lambda history: history["inspect"] in ("qcow2", "vmdk"), decider_depth="atom")
    flow.link(convert, copies)
    flow.link(verify, copies)
    return flow


def fetch(book, uri, full_store=None, dies=False):
    store = {"image_id": "image-1", "uri": uri, "full_store": full_store, "dies": dies}
    run(make_flow(["file", "ceph"]), store=store, book=book)


def main():
    os.chdir(tempfile.mkdtemp())
    in_a_process("A raw image is imported: nothing is converted.", fetch, "one.book", "http://there/cirros.raw")
    in_a_process("The second store is full: all is undone.", fetch, "two.book", "http://there/cirros.qcow2", "ceph")
    in_a_process("The process is killed between the stores,", fetch, "three.book", "http://there/cirros.qcow2", None, True)
    in_a_process("and another goes on.", fetch, "three.book", "http://there/cirros.qcow2", None, True)


main()
