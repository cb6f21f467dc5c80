#!/usr/bin/env python3
"""Writes an image of static programs for container engines, without an engine: a tar archive of OCI's layout.

The same programs give the same bytes. `docker load -i FILE` and `podman load -i FILE` take it, and
`skopeo copy --all oci-archive:FILE docker://REGISTRY/NAME:VERSION` pushes it. An engine that is older than OCI's layout reads
the first program alone.
"""
import argparse
import datetime
import hashlib
import json
import pathlib
import sys

from archives import EXECUTABLE, MOMENT, READABLE, gzipped, tar

NAME = "taskgraph"
# whoever has no rights
NOBODY = "65534:65534"
KIND = "application/vnd.oci.image"


def digest(data: bytes) -> str:
    return f"sha256:{hashlib.sha256(data).hexdigest()}"


def path_of(blob: dict) -> str:
    """The place of a blob in the layout."""
    return f"blobs/{blob['digest'].replace(':', '/')}"


def as_json(value: object) -> bytes:
    return json.dumps(value, sort_keys=True).encode()


class Layout:
    """The blobs of an image, by their digests."""

    def __init__(self):
        self.blobs: dict[str, bytes] = {}

    def keep(self, kind: str, data: bytes, **more: object) -> dict:
        """Keeps a blob, and gives what refers to it."""
        referred = {"mediaType": f"{KIND}.{kind}", "digest": digest(data), "size": len(data), **more}
        self.blobs[path_of(referred)] = data
        return referred

    def add(self, platform: str, program: bytes, version: str) -> tuple[dict, dict]:
        """Adds a program for a platform; gives what refers to its manifest, and the same as engines before OCI read it."""
        system, _, processor = platform.partition("/")
        layer = tar([(NAME, program, EXECUTABLE)])
        created = datetime.datetime.fromtimestamp(MOMENT, datetime.timezone.utc)
        config = {
            "created": f"{created:%Y-%m-%dT%H:%M:%SZ}",
            "architecture": processor,
            "os": system,
            "config": {
                "Entrypoint": [f"/{NAME}"],
                "User": NOBODY,
                "Labels": {"org.opencontainers.image.version": version, "org.opencontainers.image.licenses": "MIT"},
            },
            "rootfs": {"type": "layers", "diff_ids": [digest(layer)]},
        }
        configured = self.keep("config.v1+json", as_json(config))
        packed = self.keep("layer.v1.tar+gzip", gzipped(layer))
        manifest = {"schemaVersion": 2, "mediaType": f"{KIND}.manifest.v1+json", "config": configured, "layers": [packed]}
        referred = self.keep("manifest.v1+json", as_json(manifest), platform={"os": system, "architecture": processor})
        older = {"Config": path_of(configured), "RepoTags": [f"{NAME}:{version}"], "Layers": [path_of(packed)]}
        return referred, older


def index_of(manifests: list[dict]) -> bytes:
    return as_json({"schemaVersion": 2, "mediaType": f"{KIND}.index.v1+json", "manifests": manifests})


def image(version: str, programs: dict[str, bytes]) -> bytes:
    """The archive of an image with a program for each platform, as linux/amd64. The first is the one that old engines read."""
    layout = Layout()
    added = [layout.add(platform, program, version) for platform, program in programs.items()]
    top = added[0][0] if len(added) == 1 else layout.keep("index.v1+json", index_of([manifest for manifest, _ in added]))
    reference = f"docker.io/library/{NAME}:{version}"
    top["annotations"] = {"org.opencontainers.image.ref.name": version, "io.containerd.image.name": reference}
    files = {
        "oci-layout": as_json({"imageLayoutVersion": "1.0.0"}),
        "index.json": index_of([top]),
        "manifest.json": as_json([added[0][1]]),
        **dict(sorted(layout.blobs.items())),
    }
    return tar((name, data, READABLE) for name, data in files.items())


def main() -> int:
    parser = argparse.ArgumentParser(description=__doc__, formatter_class=argparse.RawDescriptionHelpFormatter)
    parser.add_argument("out", type=pathlib.Path, metavar="OUT.tar")
    parser.add_argument("version", metavar="VERSION")
    parser.add_argument("programs", nargs="+", metavar="PLATFORM=PROGRAM", help="linux/amd64 or linux/arm64, and its program")
    given = parser.parse_args()
    pairs = [word.partition("=") for word in given.programs]
    programs = {platform: pathlib.Path(file).read_bytes() for platform, _, file in pairs}
    given.out.write_bytes(image(given.version, programs))
    return 0


if __name__ == "__main__":
    sys.exit(main())
