"""A small provider of users over sqlite3 with Flask, of the kind that the hub is measured beside: the rows of a set in two tables with
indexes, and each answer made of them as it is asked for.

    flask_provider.py SET DATABASE PORT
"""

import csv
import os
import sqlite3
import sys

from flask import Flask, abort, g, jsonify, request
from werkzeug.serving import WSGIRequestHandler

SET, DATABASE, PORT = sys.argv[1], sys.argv[2], int(sys.argv[3])
COLUMNS = ["sourcedId", "status", "dateLastModified", "enabledUser", "orgSourcedIds", "role", "username", "givenName", "familyName", "identifier", "email", "grades"]
API = "/ims/oneroster/v1p1"

app = Flask(__name__)


def load():
    """The tables, out of the set's files."""
    base = sqlite3.connect(DATABASE)
    base.execute(f"CREATE TABLE users ({', '.join(COLUMNS)}, PRIMARY KEY (sourcedId))")
    base.execute("CREATE TABLE enrollments (class, user, role)")
    for name, statement, columns in (
        ("users", f"INSERT INTO users VALUES ({', '.join('?' * len(COLUMNS))})", COLUMNS),
        ("enrollments", "INSERT INTO enrollments VALUES (?, ?, ?)", ["classSourcedId", "userSourcedId", "role"]),
    ):
        with open(os.path.join(SET, f"{name}.csv"), encoding="utf-8") as file:
            base.executemany(statement, ([row[column] for column in columns] for row in csv.DictReader(file)))
    base.execute("CREATE INDEX by_class ON enrollments (class, role, user)")
    base.execute("CREATE INDEX by_school ON users (orgSourcedIds, role, sourcedId)")
    base.commit()
    base.close()


def rows(statement, *values):
    if "base" not in g:
        g.base = sqlite3.connect(DATABASE)
    return g.base.execute(statement, values).fetchall()


@app.teardown_appcontext
def close(_):
    if "base" in g:
        g.pop("base").close()


@app.before_request
def look_at_token():
    if request.headers.get("Authorization") != "Bearer tok-a":
        abort(401)


def user(row):
    found = dict(zip(COLUMNS, row))
    found["enabledUser"] = found["enabledUser"] == "true"
    found["grades"] = found["grades"].split(",")
    found["orgs"] = [{"href": f"{API}/orgs/{org}", "sourcedId": org, "type": "org"} for org in found.pop("orgSourcedIds").split(",")]
    return found


def page(where, *values):
    limit, offset = int(request.args.get("limit", 100)), int(request.args.get("offset", 0))
    total = rows(f"SELECT count(*) FROM users WHERE {where}", *values)[0][0]
    found = rows(f"SELECT {', '.join(COLUMNS)} FROM users WHERE {where} ORDER BY sourcedId LIMIT ? OFFSET ?", *values, limit, offset)
    answer = jsonify(users=[user(row) for row in found])
    answer.headers["X-Total-Count"] = total
    return answer


@app.get(f"{API}/users")
def users():
    return page("1")


@app.get(f"{API}/users/<name>")
def one(name):
    found = rows(f"SELECT {', '.join(COLUMNS)} FROM users WHERE sourcedId = ?", name)
    return jsonify(user=user(found[0])) if found else abort(404)


@app.get(f"{API}/schools/<name>/students")
def of_school(name):
    return page("orgSourcedIds = ? AND role = 'student'", name)


@app.get(f"{API}/classes/<name>/students")
def of_class(name):
    return page("sourcedId IN (SELECT user FROM enrollments WHERE class = ? AND role = 'student')", name)


load()
WSGIRequestHandler.protocol_version = "HTTP/1.1"
app.run("127.0.0.1", PORT, threaded=True)
