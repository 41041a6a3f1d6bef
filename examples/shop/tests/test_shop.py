"""The shop from outside, by pytest: its routes, and what the worker does."""
import json
import os
import time
import urllib.error
import urllib.request
from concurrent.futures import ThreadPoolExecutor

ROUTES = os.environ["LAMBDA_LOCAL_ROUTES"]


def ask(path, body=None):
    request = urllib.request.Request(ROUTES + path, body and json.dumps(body).encode(),
                                     {"content-type": "application/json"})
    try:
        with urllib.request.urlopen(request, timeout=30) as answer:
            return answer.status, json.load(answer)
    except urllib.error.HTTPError as fault:
        return fault.code, json.load(fault)


def test_an_order_is_priced_and_packed():
    status, order = ask("/orders", {"article": "tea", "count": 2})
    assert (status, order["cents"], order["state"]) == (201, 900, "new")
    end = time.monotonic() + 30
    while ask(f"/orders/{order['id']}")[1]["state"] != "packed":
        assert time.monotonic() < end
        time.sleep(0.1)


def test_an_order_that_is_not_there():
    assert ask("/orders/none") == (404, {"message": "there is no such order"})


def test_what_has_no_price():
    assert ask("/orders", {"article": "gold", "count": 1})[0] == 502


def test_six_customers_at_once():
    with ThreadPoolExecutor(6) as pool:
        orders = list(pool.map(lambda _: ask("/orders", {"article": "cup", "count": 1}), range(6)))
    assert [(status, order["cents"]) for status, order in orders] == 6 * [(201, 900)]
