"""What the scripts share that compare hubs over random rosters: sets that change a small district, and a caller's reads."""

import http.client
import json
import os
import sys

from measure import write_manifest
from rows import DISTRICT
from serving import API

SCHOOLS = 3
SCOPES = "roster.readonly roster-demographics.readonly gradebook.readonly"
KINDS = [kind for kind, *_ in DISTRICT]
# The kinds whose rows move between schools, with the column that says where a row is.
MOVED = {"classes": 9, "users": 4, "enrollments": 4, "courses": 7, "orgs": 6}


def moved(dice, kind, line):
    """A row at another school, or with another text, or marked as deleted."""
    cells = line.split(",")
    turn = dice.random()
    if turn < 0.3:
        cells[1] = "tobedeleted" if cells[1] == "active" else "active"
    elif turn < 0.7 and '"' not in line:
        cells[MOVED[kind]] = f"org-{dice.randrange(SCHOOLS + 1):06}" if kind != "orgs" else "org-000000"
    cells[2] = f"2024-09-{dice.randrange(1, 29):02}T10:15:30.500Z"
    return ",".join(cells)


def lines_of(kind):
    """A kind's header, and its rows in the first version."""
    _, each, more, header, row = next(entry for entry in DISTRICT if entry[0] == kind)
    return header, [row(number) for number in range(each * SCHOOLS + more)]


def write_changes(dice, folder):
    """A delta set that changes some rows of two kinds."""
    kinds = dice.sample(sorted(MOVED), 2)
    write_manifest(folder, kinds, mode="delta")
    for kind in kinds:
        header, lines = lines_of(kind)
        chosen = dice.sample(lines, min(len(lines), dice.randrange(1, 6)))
        with open(os.path.join(folder, kind + ".csv"), "w", encoding="utf-8") as file:
            file.write("\n".join([header, *(moved(dice, kind, line) for line in chosen)]) + "\n")


class Reader:
    """A caller's reads over one connection."""

    def __init__(self, port, token):
        self.connection = http.client.HTTPConnection("127.0.0.1", port)
        self.token = token

    def reply(self, path):
        """The reply and its body."""
        self.connection.request("GET", API + path, headers={"Authorization": f"Bearer {self.token}"})
        reply = self.connection.getresponse()
        return reply, reply.read()

    def read(self, path):
        reply, body = self.reply(path)
        if reply.status != 200:
            sys.exit(f"{path}: {reply.status} {body.decode()}")
        return json.loads(body), int(reply.headers["X-Total-Count"])

    def whole(self, kind, version=None):
        """The rows of a kind in a version, or the newest, by id."""
        rows, offset = {}, 0
        pin = f"&hubVersion={version}" if version is not None else ""
        while True:
            body, total = self.read(f"/{kind}?limit=1000&offset={offset}{pin}")
            for row in body[kind]:
                rows[row["sourcedId"]] = row
            offset += 1000
            if offset >= total:
                return rows
