"""Packs a program as a container image for linux/amd64, with its loader and its libraries and nothing else.

The archive is a layout by the image specification of OCI, which Podman and newer versions of Docker read. Older versions of Docker read
the file manifest.json beside it, which names the same blobs. `docker save` writes both too.
"""
import datetime
import hashlib
import json
import os
import pathlib
import re
import subprocess

from tars import tar_of

# Where the program is in the image, and where the files of a caller are mounted.
PROGRAM, WORK = "usr/bin/snapjudge", "work"
# GNU's C library is in the image too.
LIBRARY_LICENSE = "LGPL-2.1-or-later"
OCI = "application/vnd.oci.image"
PLATFORM = {"architecture": "amd64", "os": "linux"}


def needed_by(program):
    """The places of the loader and of the libraries that a program loads on this machine."""
    clean = {"PATH": os.environ["PATH"], "LC_ALL": "C"}
    said = subprocess.run(["ldd", program], env=clean, capture_output=True, text=True, check=True).stdout
    return re.findall(r"^[^/\n]*(/\S+)", said, re.MULTILINE)


def layer_of(program, date):
    """A tar of the program, of what it loads, and of an empty folder for the files of a caller."""
    tree = {place.lstrip("/"): pathlib.Path(place).read_bytes() for place in needed_by(program)}
    return tar_of({**tree, PROGRAM: program.read_bytes()}, "", date, lambda _: True, [WORK])


def json_of(value):
    return json.dumps(value, sort_keys=True, separators=(",", ":")).encode()


def digest_of(data):
    return f"sha256:{hashlib.sha256(data).hexdigest()}"


def blob_of(data):
    """The name of a blob in the archive."""
    return f"blobs/{digest_of(data).replace(':', '/')}"


def descriptor(kind, data):
    return {"mediaType": f"{OCI}.{kind}", "digest": digest_of(data), "size": len(data)}


def config_of(layer, labels, date):
    """How the image runs, its labels, and what its layer is."""
    created = datetime.datetime.fromtimestamp(date, datetime.timezone.utc).strftime("%Y-%m-%dT%H:%M:%SZ")
    how = {"Entrypoint": [f"/{PROGRAM}"], "Env": ["PATH=/usr/bin"], "Labels": labels, "WorkingDir": f"/{WORK}"}
    return {
        **PLATFORM,
        "config": how,
        "created": created,
        "history": [{"created": created, "created_by": "./package"}],
        "rootfs": {"type": "layers", "diff_ids": [digest_of(layer)]},
    }


def labels_of(name, version, license, proved, total):
    """The labels of an image, by the names that OCI has for them. The revision is the sum of the sources of the program."""
    said = {"title": name, "version": version, "licenses": f"{license} AND {LIBRARY_LICENSE}", "description": proved, "revision": total}
    return {f"org.opencontainers.image.{word}": what for word, what in said.items()}


def image_of(program, name, version, labels, date):
    """The archive of an image with one layer, under the tags of its version and `latest`."""
    layer = layer_of(program, date)
    config = json_of(config_of(layer, labels, date))
    parts = {"config": descriptor("config.v1+json", config), "layers": [descriptor("layer.v1.tar", layer)]}
    manifest = json_of({"schemaVersion": 2, "mediaType": f"{OCI}.manifest.v1+json", **parts})
    tags = [version, "latest"]
    named = [{"io.containerd.image.name": f"docker.io/library/{name}:{tag}", "org.opencontainers.image.ref.name": tag} for tag in tags]
    entries = [{**descriptor("manifest.v1+json", manifest), "platform": PLATFORM, "annotations": it} for it in named]
    older = {"Config": blob_of(config), "Layers": [blob_of(layer)], "RepoTags": [f"{name}:{tag}" for tag in tags]}
    tree = {
        "oci-layout": json_of({"imageLayoutVersion": "1.0.0"}),
        "index.json": json_of({"schemaVersion": 2, "mediaType": f"{OCI}.index.v1+json", "manifests": entries}),
        "manifest.json": json_of([older]),
        **{blob_of(data): data for data in (layer, config, manifest)},
    }
    return tar_of(tree, "", date, lambda _: False)
