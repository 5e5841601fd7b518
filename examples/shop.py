"""A shop at a gateway: buyers order and cancel at the same time, and an audit looks at everything as of one moment.

python3 -m duqishom serve --socket shop.socket --dir FOLDER & python3 examples/shop.py unix:shop.socket BUYERS SECONDS
"""

import random
import sys
import time
from contextlib import suppress
from multiprocessing import Pool

import duqishom
from duqishom.layers.index import Index

AMOUNT, ITEMS = 1000, [b"stock/%04d" % number for number in range(100)]
ORDERS = Index("orders by customer", b"customer")


def take(t, lines):
    """Takes so many of each item from the stock, or gives them back: the price. ValueError if one is sold out."""
    total = 0
    for item, count in lines.items():
        left, price = map(int, t.get_many([(item, b"left"), (item, b"price")]))
        if left < count:
            raise ValueError("sold out")
        t.put(item, b"left", b"%d" % (left - count))
        total += count * price
    return total


@duqishom.transactional
def order(t, row, customer, lines):
    counts = {item: b"%d" % count for item, count in lines.items()}
    ORDERS.put(t, row, {b"customer": customer, b"total": b"%d" % take(t, lines), **counts})


@duqishom.transactional
def cancel(t, row):
    take(t, {family: -int(value) for family, value in t.row(row).items() if family in ITEMS})
    ORDERS.delete(t, row)


def buyer(address, number, seconds):
    dice, rows, end = random.Random(number), [], time.monotonic() + seconds
    with duqishom.connect(address) as store:
        while time.monotonic() < end:
            with suppress(ValueError, duqishom.TransactionFailed):
                if rows and dice.random() < 0.2:
                    cancel(store, rows.pop())
                row = b"order/%d-%d" % (number, time.time_ns())
                order(store, row, b"customer %d" % dice.randrange(20), dict.fromkeys(dice.sample(ITEMS, 3), 2))
                rows.append(row)


@duqishom.transactional
def audit(t):
    """How many orders there are. Everything is in the stock or in an order, and each order is in the index."""
    stock, orders = dict(t.rows(prefix=b"stock/")), dict(t.rows(prefix=b"order/"))
    assert set(orders) == set(ORDERS.rows(t))
    for item, cells in stock.items():
        assert int(cells[b"left"]) + sum(int(order.get(item, 0)) for order in orders.values()) == AMOUNT, item
    return len(orders)


if __name__ == "__main__":
    address, buyers, seconds = sys.argv[1], int(sys.argv[2]), float(sys.argv[3])
    with duqishom.connect(address) as store, Pool(buyers) as pool:
        if not store.row(ITEMS[0]):
            cells = [(item, *cell) for item in ITEMS for cell in ((b"left", b"%d" % AMOUNT), (b"price", b"100"))]
            store.run(lambda t: [t.put(*cell) for cell in cells])
        pool.starmap(buyer, [(address, number, seconds) for number in range(buyers)])
        print(audit(store), "orders")
