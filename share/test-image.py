#!/usr/bin/env python3
"""Tries the archive of a container image by the image specification of OCI, and unpacks its layer. It says the first thing that is wrong.

usage: test-image.py IMAGE VERSION DAY PROVED FOLDER

DAY is the time of each file, as 2026-01-31. PROVED is the file of the archive that says who proved the program, and of which sources it
is; the labels must say the same. FOLDER is empty, and gets the files.

Each digest and each size is computed anew. What older readers take from manifest.json must be the same image. First the tests are tried
themselves: each must find what is wrong with a changed archive.
"""
import datetime
import hashlib
import io
import json
import pathlib
import re
import sys
import tarfile
import typing

OCI = "application/vnd.oci.image"
PLATFORM = {"architecture": "amd64", "os": "linux"}
FRONT = "org.opencontainers.image."
BLOB = re.compile(rb"(?<=sha256[:/])[0-9a-f]{64}")
# Other words for some of the archive, and what is then wrong. The digests are made right again.
WRONG = [
    (b'"architecture":"amd64","config"', b'"architecture":"arm64","config"', "platform of the image"),
    (b'"linux"', b'"plan9"', "platform of the index"),
    (b"layer.v1.tar", b"layer.v1.tax", "kind"),
    (b"config.v1+json", b"config.v2+json", "kind"),
    (b'"size":', b'"size":1', "size"),
    (b'"/work"', b'"/walk"', "how it runs"),
    (b'["/usr/bin/snapjudge"]', b'["/usr/bin/snapjudgf"]', "how it runs"),
    (b'"created":"2', b'"created":"3', "time"),
    (b'"diff_ids":["sha256:', b'"diff_ids":["sha512:', "layers"),
    (b'"Layers":["b', b'"Layers":["c', "manifest.json"),
    (b'"latest"', b'"newest"', "tags"),
    (b'"imageLayoutVersion":"1', b'"imageLayoutVersion":"2', "oci-layout"),
    (b'"history"', b'"mystery"', "history"),
    (b'"MIT ', b'"GPL ', "labels"),
]


class Wrong(Exception):
    """What is wrong with an archive."""


def require(is_so, what):
    if not is_so:
        raise Wrong(what)


def sum_of(data):
    return hashlib.sha256(data).hexdigest()


def read_tar(data, day):
    """What a tar holds by name: the bytes and the mode of each file, and none of a folder. All are of root, and of this day."""
    date = datetime.datetime.fromisoformat(f"{day}T00:00:00+00:00").timestamp()
    with tarfile.open(fileobj=io.BytesIO(data)) as archive:
        found = archive.getmembers()
        require([it.name for it in found] == sorted({it.name for it in found}), "names")
        for it in found:
            require((it.uid, it.gid, it.uname, it.gname, it.mtime) == (0, 0, "", "", date), f"owner or time of {it.name}")
            require(it.isfile() or it.isdir(), f"kind of {it.name}")
            require(not it.name.startswith("/") and ".." not in it.name.split("/"), f"place of {it.name}")
        return {it.name: (archive.extractfile(it).read(), it.mode) if it.isfile() else None for it in found}


def blob(files, described, kind):
    """The bytes that a descriptor names."""
    require(described["mediaType"] == f"{OCI}.{kind}", f"kind of {described['digest']}")
    algorithm, _, name = described["digest"].partition(":")
    data = files.get(f"blobs/{algorithm}/{name}")
    require(data is not None and algorithm == "sha256" and sum_of(data) == name, f"digest of {described['digest']}")
    require(described["size"] == len(data), f"size of {described['digest']}")
    return data


class Wanted(typing.NamedTuple):
    """What an image must say: its version, its day, who proved it, and the sum of its sources."""

    version: str
    day: str
    proved: str
    revision: str


def judge_config(config, layer, wanted):
    """How the image runs, and what its one layer is."""
    require({name: config[name] for name in PLATFORM} == PLATFORM, "platform of the image")
    require(config["created"] == f"{wanted.day}T00:00:00Z", "time of the image")
    require(config["rootfs"] == {"type": "layers", "diff_ids": [f"sha256:{sum_of(layer)}"]}, "layers of the image")
    require(len(config.get("history", [])) == 1 and not config["history"][0].get("empty_layer"), "history of the image")
    how = config["config"]
    require(how["Entrypoint"] == ["/usr/bin/snapjudge"] and how["WorkingDir"] == "/work", "how it runs")
    said = {"title": "snapjudge", "licenses": "MIT AND LGPL-2.1-or-later", "version": wanted.version}
    said |= {"description": wanted.proved, "revision": wanted.revision}
    require(how["Labels"] == {FRONT + name: what for name, what in said.items()}, "labels")


def layer_of(files, wanted):
    """The layer of an image that is right."""
    require(json.loads(files["oci-layout"]) == {"imageLayoutVersion": "1.0.0"}, "oci-layout")
    index = json.loads(files["index.json"])
    require((index["schemaVersion"], index["mediaType"]) == (2, f"{OCI}.index.v1+json"), "kind of the index")
    tags = [it["annotations"][f"{FRONT}ref.name"] for it in index["manifests"]]
    require(tags == [wanted.version, "latest"] and len({it["digest"] for it in index["manifests"]}) == 1, "tags")
    require(all(it["platform"] == PLATFORM for it in index["manifests"]), "platform of the index")
    found = [blob(files, it, "manifest.v1+json") for it in index["manifests"]][0]
    manifest = json.loads(found)
    require((manifest["schemaVersion"], manifest["mediaType"]) == (2, f"{OCI}.manifest.v1+json"), "kind of the manifest")
    config = blob(files, manifest["config"], "config.v1+json")
    [layer] = [blob(files, it, "layer.v1.tar") for it in manifest["layers"]]
    judge_config(json.loads(config), layer, wanted)
    older = {"Config": f"blobs/sha256/{sum_of(config)}", "Layers": [f"blobs/sha256/{sum_of(layer)}"]}
    older["RepoTags"] = [f"snapjudge:{it}" for it in tags]
    require(json.loads(files["manifest.json"]) == [older], "manifest.json")
    blobs = {f"blobs/sha256/{sum_of(data)}" for data in (found, config, layer)}
    require(set(files) == {"oci-layout", "index.json", "manifest.json", *blobs}, "files of the archive")
    return layer


def renamed(text, names):
    """A text with other sums in place of those that have other names now."""
    return BLOB.sub(lambda it: names.get(it[0], it[0]), text)


def with_words(files, old, new):
    """The archive with other words in place of some of its JSON texts, under the digests that its blobs then have."""
    layers = {name.encode(): data for name, data in files.items() if data[:1] not in b"[{"}
    texts = {name.encode(): data.replace(old, new) for name, data in files.items() if name.encode() not in layers}
    # a config is named by a manifest, and that by the index
    for _ in range(3):
        names = {BLOB.search(name)[0]: sum_of(data).encode() for name, data in texts.items() if name.startswith(b"blobs/")}
        texts = {renamed(name, names): renamed(data, names) for name, data in texts.items()}
    return {name.decode(): data for name, data in {**layers, **texts}.items()}


def fault_of(files, wanted):
    """What is wrong with an archive."""
    try:
        layer_of(files, wanted)
    except Wrong as found:
        return str(found)
    return "nothing"


def try_tests(files, wanted):
    """Tries the tests on archives that are wrong, and on one in which nothing is changed."""
    [config] = [name for name, data in files.items() if data[:1] == b"{" and b'"rootfs"' in data]
    wrong = [(with_words(files, old, new), what) for old, new, what in WRONG]
    wrong.append(({**files, config: files[config] + b" "}, "digest"))
    wrong.append(({**files, "more": b""}, "files of the archive"))
    wrong.append(({name: data for name, data in files.items() if name != config}, "digest"))
    wrong.append((with_words(files, b"no such words", b""), "nothing"))
    for changed, what in wrong:
        found = fault_of(changed, wanted)
        require(what in found, f"the tests find {found}, and not {what}")


def unpack(layer, day, folder):
    for name, it in read_tar(layer, day).items():
        place = pathlib.Path(folder, name)
        if it:
            place.write_bytes(it[0])
        else:
            place.mkdir()
        place.chmod(it[1] if it else 0o755)


def main(words):
    if len(words) != 5:
        sys.exit(__doc__)
    image, version, day, proved, folder = words
    lines = pathlib.Path(proved).read_text(encoding="utf-8").splitlines()
    wanted = Wanted(version, day, lines[0], lines[1].removeprefix("sources "))
    try:
        files = {name: it[0] for name, it in read_tar(pathlib.Path(image).read_bytes(), day).items() if it}
        layer = layer_of(files, wanted)
        try_tests(files, wanted)
        unpack(layer, day, folder)
    except Wrong as found:
        sys.exit(f"{image}: this is wrong: {found}")


if __name__ == "__main__":
    main(sys.argv[1:])
