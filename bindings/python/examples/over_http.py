#!/usr/bin/env python3
"""Prints documents of a store on a web server, by ranges of its file: over_http.py URL NUMBER.."""

import sys
import threading
import urllib.request

from zevkhadun import RangedStore, Refused


class WebFile:
    """A file on a web server: its ranges, and the ETag of the response that a thread got last."""

    def __init__(self, url: str) -> None:
        self.url = url
        with urllib.request.urlopen(urllib.request.Request(url, method="HEAD")) as response:
            self.size, self.etag = int(response.headers["Content-Length"]), response.headers["ETag"]
        self.last = threading.local()

    def read(self, start: int, length: int) -> bytes:
        wanted = {"Range": f"bytes={start}-{start + length - 1}"}
        with urllib.request.urlopen(urllib.request.Request(self.url, headers=wanted)) as response:
            if response.status != 206:
                raise OSError(f"{self.url}: the server sends no ranges")
            self.last.etag = response.headers["ETag"]
            return response.read()

    def version(self) -> str:
        return getattr(self.last, "etag", self.etag)


def main() -> int:
    try:
        file = WebFile(sys.argv[1])
        with RangedStore(file.read, file.size, version=file.version, path=file.url) as store:
            for document in store.get_many(map(int, sys.argv[2:])):
                sys.stdout.buffer.write(document + b"\n")
    except (OSError, Refused) as error:
        print(f"over_http: {error}", file=sys.stderr)
        return 1
    return 0


if __name__ == "__main__":
    sys.exit(main())
