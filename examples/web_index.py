"""An incremental index of the web, as Percolator's: of the documents with the same contents the first one is canonical, and the
links of canonical documents are kept by their targets. Workers wait for what is written, and may be killed at any time.

python3 -m duqishom serve --socket web.socket --dir FOLDER & python3 examples/web_index.py unix:web.socket WORKERS DOCUMENTS
"""

import hashlib
import random
import re
import sys
from contextlib import suppress
from itertools import chain
from multiprocessing import Process

import duqishom
from duqishom.layers.index import Index
from duqishom.layers.tuples import pack, unpack

LINK = re.compile(rb'<a href="([^"]+)">([^<]*)</a>')
BY_HASH = Index("documents by hash", b"hash")


def page(dice, count):
    links = b"".join(b'<a href="http://site/%04d">to it</a>' % dice.randrange(count) for _ in range(dice.randrange(6)))
    return b"%d" % dice.randrange(12) + links


@duqishom.transactional
def put_document(t, url, content):
    t.put(url, b"content", content)
    t.put(b"todo/" + url, b"dirty", b"")


def canonical(t, digest):
    """The canonical document of a hash, and its links: a text for each target."""
    url = next(BY_HASH.rows(t, digest, limit=1), None)
    return (url, dict(LINK.findall(t.get(url, b"indexed")))) if url else (None, {})


@duqishom.transactional
def process(t, url):
    """Takes a document from its old hash to that of its content. Who changes the documents of one hash has to conflict."""
    dirty, content, old = t.get_many([(b"todo/" + url, b"dirty"), (url, b"content"), (url, b"hash")])
    new = hashlib.sha1(content).hexdigest().encode()
    hashes = {digest for digest in (old, new) if digest and old != new and dirty is not None}
    for digest in hashes:
        t.put(b"guard/" + digest, b"by", url)
        other, links = canonical(t, digest)
        for target in links:
            t.delete(pack(("linked", target, other)), b"text")
    t.delete(b"todo/" + url, b"dirty")
    if hashes:
        BY_HASH.put(t, url, {b"hash": new, b"indexed": content})
    for digest in hashes:
        other, links = canonical(t, digest)
        for target, text in links.items():
            t.put(pack(("linked", target, other)), b"text", text)


def worker(address):
    """Processes what is to be done, from some place on, for workers that all begin at the first one conflict."""
    with duqishom.connect(address) as store:
        for _ in store.watch(b"todo/"):
            while True:
                start = b"todo/http://site/%04d" % random.randrange(10_000)
                scans = [store.scan(start, b"todo/~", keys=True, limit=1), store.scan(prefix=b"todo/", keys=True, limit=1)]
                found = next(chain(*scans), None)
                if found is None:
                    break
                with suppress(duqishom.TransactionFailed):
                    process(store, found[0].removeprefix(b"todo/"))


@duqishom.transactional
def check(t):
    """How many documents are to be processed, as of a moment in which all others are in the index as they should be."""
    documents = {url: cells for url, cells in t.rows(prefix=b"http") if b"hash" in cells}
    linked = {unpack(row)[1:] for row, _, _ in t.scan(prefix=pack(("linked",)), keys=True)}
    first = {cells[b"hash"]: url for url, cells in sorted(documents.items(), reverse=True)}
    wanted = {(target, url) for url in first.values() for target, _ in LINK.findall(documents[url][b"indexed"])}
    assert linked == wanted and set(BY_HASH.rows(t)) == set(documents)
    return t.count(prefix=b"todo/")


if __name__ == "__main__":
    address, workers, count = sys.argv[1], int(sys.argv[2]), int(sys.argv[3])
    for _ in range(workers):
        Process(target=worker, args=(address,), daemon=True).start()
    with duqishom.connect(address) as store:
        for number in range(3 * count):
            put_document(store, b"http://site/%04d" % random.randrange(count), page(random, count))
        for _ in store.watch(b"todo/"):
            if check(store) == 0:
                break
        print(store.count(prefix=b"http", family=b"hash"), "documents")
