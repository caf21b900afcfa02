#!/usr/bin/env python3
"""Writes users as a CSV file, whole or as what changed since an earlier file: what `bench/export` measures beside `hub export`.

    plain_export.py USERS.json [EARLIER.csv]

USERS.json is what `hub list users` printed. Rows that are gone get the date of the run.
"""

import csv
import datetime
import json
import sys

TEXTS = "givenName familyName middleName identifier email sms phone".split()
LISTS = "orgSourcedIds userIds agentSourcedIds grades".split()
COLUMNS = "sourcedId status dateLastModified enabledUser orgSourcedIds role username userIds".split() + TEXTS + ["agentSourcedIds", "grades"]


def ids(references):
    return ",".join(reference["sourcedId"] for reference in references)


def cells(row):
    """The cells of a user by their columns; those that are blank are left out."""
    found = {column: row[column] for column in COLUMNS if column in row}
    found["orgSourcedIds"] = ids(row["orgs"])
    found["agentSourcedIds"] = ids(row.get("agents", []))
    found["userIds"] = ",".join(f"{{{user_id['type']}:{user_id['identifier']}}}" for user_id in row.get("userIds", []))
    found["grades"] = ",".join(row.get("grades", []))
    found.update((f"metadata.{key}", text) for key, text in row.get("metadata", {}).items())
    return {column: cell for column, cell in found.items() if cell}


def plain(column, cell):
    """A cell without the spaces that say nothing."""
    return ",".join(item.strip() for item in cell.split(",")) if column in LISTS else cell.strip()


def read_earlier(path):
    with open(path, encoding="utf-8", newline="") as file:
        rows = [{column: plain(column, cell) for column, cell in row.items() if cell} for row in csv.DictReader(file)]
    return {row["sourcedId"]: row for row in rows}


def changes(held, earlier, at):
    """What the earlier rows lack or have otherwise, and the active ones that aren't held, as deleted."""
    known = {row["sourcedId"] for row in held}
    told = [row for row in held if earlier.get(row["sourcedId"]) != row]
    gone = [row for row in earlier.values() if row["sourcedId"] not in known and row.get("status", "active") == "active"]
    told.extend({**row, "status": "tobedeleted", "dateLastModified": at} for row in gone)
    return sorted(told, key=lambda row: row["sourcedId"].encode())


def write(rows, out):
    metadata = sorted({column for row in rows for column in row if column.startswith("metadata.")})
    writer = csv.DictWriter(out, COLUMNS + metadata, restval="", extrasaction="ignore", lineterminator="\n")
    writer.writeheader()
    writer.writerows(rows)


def main():
    path, *earlier = sys.argv[1:]
    with open(path, encoding="utf-8") as file:
        rows = [cells(row) for row in json.load(file)["users"]]
    if earlier:
        at = datetime.datetime.now(datetime.timezone.utc).strftime("%Y-%m-%dT%H:%M:%S.000Z")
        rows = changes(rows, read_earlier(earlier[0]), at)
    write(rows, sys.stdout)


main()
