"""A service that moves money from a bank to a shop, for gunicorn or any other server of WSGI. In a folder with bank.toml:

    gunicorn --config gunicorn.conf.py transfers:application
    curl --data '{"id": "a-1", "account": 1, "amount": 10}' http://localhost:8000/

Both databases have a table `account (id int PRIMARY KEY, balance int)` and one `transfer (id varchar(40) PRIMARY KEY, amount int)`.
Whoever gets no reply, or an error, asks again with the same id: a transfer is made once.
"""

import json

from garterfossil import HeuristicEnd, OutcomeUnknown, manager_of

xa = None


def start_worker():
    """The worker's own manager: that of the process it was forked from would be refused."""
    global xa
    xa = manager_of("bank.toml")


def is_done(order):
    with xa.transaction() as t:
        return bool(t["bank"].execute("SELECT 1 FROM transfer WHERE id = %s", [order["id"]]).rows)


def move(order):
    with xa.transaction() as t:
        for branch, sign in ((t["bank"], -1), (t["shop"], 1)):
            branch.execute("INSERT INTO transfer VALUES (%s, %s)", [order["id"], order["amount"]])
            branch.execute("UPDATE account SET balance = balance + %s WHERE id = %s", [sign * order["amount"], order["account"]])


def reply_to(order):
    try:
        if not is_done(order):
            move(order)
        return "200 OK", "done"
    except (OutcomeUnknown, HeuristicEnd) as error:
        return "503 Service Unavailable", f"it may be done: {error}"
    except Exception as error:
        return "500 Internal Server Error", f"nothing was done: {error}"


def application(environ, start_response):
    status, text = reply_to(json.loads(environ["wsgi.input"].read(int(environ["CONTENT_LENGTH"]))))
    start_response(status, [("Content-Type", "text/plain")])
    return [text.encode()]
