"""A registry of npm on the loopback address that serves the packages of one world."""

import gzip
import hashlib
import io
import json
import tarfile
from base64 import b64encode
from http.server import BaseHTTPRequestHandler, ThreadingHTTPServer
from threading import Thread
from typing import Any, Dict, Tuple
from urllib.parse import unquote

Json = Dict[str, Any]
Releases = Dict[str, Dict[str, Json]]
"""The package.json of each version of each name."""


def archive_of(manifest: Json) -> bytes:
    """Returns the archive of a release, which has only its package.json."""
    text = json.dumps(manifest).encode()
    made = io.BytesIO()
    with tarfile.open(fileobj=made, mode="w:gz") as archive:
        entry = tarfile.TarInfo("package/package.json")
        entry.size = len(text)
        archive.addfile(entry, io.BytesIO(text))
    return made.getvalue()


class Handler(BaseHTTPRequestHandler):
    """Replies to requests for packages and archives."""

    server: "Registry"

    def do_GET(self) -> None:
        """Sends the document or the archive at a path."""
        found = self.server.files.get(unquote(self.path))
        self.send_response(200 if found else 404)
        body = found or b"{}"
        self.send_header("Content-Length", str(len(body)))
        self.send_header("Content-Type", "application/json")
        self.end_headers()
        self.wfile.write(body)

    def do_POST(self) -> None:
        """Sends the advisories for the packages in a request of `npm audit`."""
        sent = self.rfile.read(int(self.headers.get("Content-Length", "0")))
        if self.headers.get("Content-Encoding") == "gzip":
            sent = gzip.decompress(sent)
        asked = json.loads(sent or b"{}")
        found = {name: it for name, it in self.server.advisories.items() if name in asked}
        is_bulk = self.path.endswith("/advisories/bulk")
        self.send_response(200 if is_bulk else 404)
        body = json.dumps(found if is_bulk else {}).encode()
        self.send_header("Content-Length", str(len(body)))
        self.send_header("Content-Type", "application/json")
        self.end_headers()
        self.wfile.write(body)

    def log_message(self, format: str, *arguments: Any) -> None:
        """Logs nothing."""


class Registry(ThreadingHTTPServer):
    """A registry, which ends with the process."""

    daemon_threads = True

    def __init__(self) -> None:
        super().__init__(("127.0.0.1", 0), Handler)
        self.files: Dict[str, bytes] = {}
        self.advisories: Json = {}
        Thread(target=self.serve_forever, daemon=True).start()

    @property
    def url(self) -> str:
        """Returns the URL of the registry."""
        return f"http://127.0.0.1:{self.server_address[1]}"

    def archive_at(self, name: str, version: str) -> str:
        """Returns the URL of the archive of a release."""
        return f"{self.url}/{name}/-/{name.rpartition('/')[2]}-{version}.tgz"

    def integrity_of(self, name: str, version: str) -> str:
        """Returns the checksum of the archive of a release that is served."""
        url = self.archive_at(name, version)
        sums: str = self.sums_of(self.files[url[len(self.url) :]], url)["integrity"]
        return sums

    def serve(self, releases: Releases) -> None:
        """Serves these packages instead of the previous ones."""
        self.files = {}
        for name, versions in releases.items():
            listed = {}
            for version, manifest in versions.items():
                archive = archive_of(manifest)
                url = self.archive_at(name, version)
                self.files[url[len(self.url) :]] = archive
                listed[version] = {**manifest, "dist": self.sums_of(archive, url)}
            latest = max(versions, key=in_order)
            document = {"name": name, "dist-tags": {"latest": latest}, "versions": listed}
            self.files[f"/{name}"] = json.dumps(document).encode()

    def serve_advisories(self, advisories: Json) -> None:
        """Serves advisories, by package name, instead of the previous ones."""
        self.advisories = advisories

    @staticmethod
    def sums_of(archive: bytes, url: str) -> Json:
        """Returns the URL of an archive and its checksums."""
        sha512 = b64encode(hashlib.sha512(archive).digest()).decode()
        shasum = hashlib.sha1(archive).hexdigest()
        return {"tarball": url, "shasum": shasum, "integrity": f"sha512-{sha512}"}


def in_order(version: str) -> Tuple[bool, Tuple[int, ...]]:
    """Returns a sort key by which releases come after pre-releases."""
    numbers, dash, _ = version.partition("-")
    return not dash, tuple(map(int, numbers.split(".")))
