"""The rows of the benchmarks: orgs and users by themselves, and a whole district."""

import os

from measure import AT, numbers_of, write_manifest, write_rows

ORG = "sourcedId,status,dateLastModified,name,type,identifier,parentSourcedId"
USER = "sourcedId,status,dateLastModified,enabledUser,orgSourcedIds,role,username,userIds,givenName,familyName,grades,metadata.locker"


def org(number):
    """One district, and schools under it: a row of some 80 bytes."""
    kind, parent = ("school", "org-000000") if number else ("district", "")
    return f"org-{number:06},{AT},{kind} number {number:06},{kind},{number:06},{parent}"


def user(number):
    """A student of two schools: a row of some 150 bytes."""
    ids = f'"{{LDAP:u{number}}},{{SIS:{number}}}"'
    return f'user-{number:06},{AT},true,"s1, s2",student,u{number},{ids},Ann,Oak {number},"09,10",{number % 997}'


def session(number):
    """A year, two terms and their four grading periods."""
    title, kind, begin, end, parent = [
        ("2024-25", "schoolYear", "2024-08-01", "2025-06-30", ""),
        ("Fall", "term", "2024-08-01", "2024-12-20", "ses0"),
        ("Spring", "term", "2025-01-07", "2025-06-30", "ses0"),
        ("Quarter 1", "gradingPeriod", "2024-08-01", "2024-10-11", "ses1"),
        ("Quarter 2", "gradingPeriod", "2024-10-14", "2024-12-20", "ses1"),
        ("Quarter 3", "gradingPeriod", "2025-01-07", "2025-03-21", "ses2"),
        ("Quarter 4", "gradingPeriod", "2025-03-24", "2025-06-30", "ses2"),
    ][number]
    return f"ses{number},{AT},{title},{kind},{begin},{end},{parent},2025"


# Of each school 1 org, 4 courses, 10 classes, 100 students and 6 teachers, 210 enrollments, 50 demographics, 9 line items
# and 20 results: the kind, the rows of a school, those of the district, the header, and a row by its number.
DISTRICT = [
    ("orgs", 1, 1, ORG, org),
    ("academicSessions", 0, 7, "sourcedId,status,dateLastModified,title,type,startDate,endDate,parentSourcedId,schoolYear", session),
    (
        "courses",
        4,
        0,
        "sourcedId,status,dateLastModified,schoolYearSourcedId,title,courseCode,grades,orgSourcedId,subjects,subjectCodes",
        lambda n: f'crs{n:06},{AT},ses0,Course {n % 4},C{n},"09,10",org-{n // 4 + 1:06},Mathematics,{100 + n % 4}',
    ),
    (
        "classes",
        10,
        0,
        "sourcedId,status,dateLastModified,title,grades,courseSourcedId,classCode,classType,location,schoolSourcedId,termSourcedIds,periods",
        lambda n: f'cls{n:06},{AT},Class {n % 10},"09,10",crs{n // 10 * 4 + n % 4:06},K{n},scheduled,Room {n % 40},org-{n // 10 + 1:06},"ses1,ses2","1,3"',
    ),
    (
        "users",
        106,
        0,
        "sourcedId,status,dateLastModified,enabledUser,orgSourcedIds,role,username,userIds,givenName,familyName,identifier,email,grades",
        lambda n: f'usr{n:07},{AT},true,org-{n // 106 + 1:06},{"student" if n % 106 < 100 else "teacher"},u{n},"{{LDAP:u{n}}},{{SIS:{n}}}",Ann,Oak {n},{900000 + n},u{n}@lake.example,{9 + n % 4:02}',
    ),
    (
        "enrollments",
        210,
        0,
        "sourcedId,status,dateLastModified,classSourcedId,schoolSourcedId,userSourcedId,role,primary,beginDate,endDate",
        lambda n: f"enr{n:07},{AT},cls{n // 210 * 10 + n % 10:06},org-{n // 210 + 1:06},usr{n // 210 * 106 + n % 106:07},{'student' if n % 106 < 100 else 'teacher'},,2024-08-01,2025-06-30",
    ),
    (
        "demographics",
        50,
        0,
        "sourcedId,status,dateLastModified,birthDate,sex",
        lambda n: f"usr{n // 50 * 106 + n % 50:07},{AT},2009-{1 + n % 12:02}-{1 + n % 28:02},{'male' if n % 2 else 'female'}",
    ),
    ("categories", 0, 3, "sourcedId,status,dateLastModified,title", lambda n: f"cat{n},{AT},Category {n}"),
    (
        "lineItems",
        9,
        0,
        "sourcedId,status,dateLastModified,title,description,assignDate,dueDate,classSourcedId,categorySourcedId,gradingPeriodSourcedId,resultValueMin,resultValueMax",
        lambda n: f"li{n:06},{AT},Homework {n},Pages {n % 90} to {n % 90 + 5},2024-08-05,2024-08-12,cls{n // 9 * 10 + n % 9:06},cat{n % 3},ses3,0,100",
    ),
    (
        "results",
        20,
        0,
        "sourcedId,status,dateLastModified,lineItemSourcedId,studentSourcedId,scoreStatus,score,scoreDate,comment",
        lambda n: f"res{n:06},{AT},li{n // 20 * 9 + n % 9:06},usr{n // 20 * 106 + n % 20:07},fully graded,{60 + n % 40},2024-08-14,",
    ),
]

ROWS_OF_A_SCHOOL = sum(rows for _, rows, *_ in DISTRICT)


def write_district(folder, schools):
    """A bulk set of ten files with this many schools."""
    write_manifest(folder, [kind for kind, *_ in DISTRICT])
    for kind, rows, others, header, row in DISTRICT:
        write_rows(os.path.join(folder, f"{kind}.csv"), header, row, rows * schools + others)


def write_users(folder, count):
    """A bulk set of two schools and this many students."""
    write_manifest(folder, ["orgs", "users"])
    with open(os.path.join(folder, "orgs.csv"), "w", encoding="utf-8") as file:
        file.write("sourcedId,name,type\ns1,East High,school\ns2,West High,school\n")
    write_rows(os.path.join(folder, "users.csv"), USER, user, count)


def write_renamed(folder, count, turn):
    """A delta set that gives some schools of a district another name."""
    write_manifest(folder, ["orgs"], mode="delta")
    with open(os.path.join(folder, "orgs.csv"), "w", encoding="utf-8") as file:
        file.write(ORG + "\n")
        for number in range(1, count + 1):
            file.write(f"org-{number:06},active,2024-09-02T10:15:30.500Z,school renamed {turn},school,{number:06},org-000000\n")


def write_feed(folder, name, count):
    """A small bulk set of one school and some students, whose ids begin with the feed's name."""
    write_manifest(folder, ["orgs", "users"])
    with open(os.path.join(folder, "orgs.csv"), "w", encoding="utf-8") as file:
        file.write(f"sourcedId,name,type\n{name}-s1,East,school\n")
    with open(os.path.join(folder, "users.csv"), "w", encoding="utf-8") as file:
        file.write("sourcedId,enabledUser,orgSourcedIds,role,username,givenName,familyName\n")
        file.writelines(f"{name}-u{number:06},true,{name}-s1,student,u{number},Ann,Oak\n" for number in range(count))


def write_chain(folder, count, is_ring=False):
    """Orgs of which each is the parent of the next, with ids in another order; in a ring the last is that of the first."""
    write_manifest(folder, ["orgs"])
    ids = list(numbers_of(count))
    with open(os.path.join(folder, "orgs.csv"), "w", encoding="utf-8") as file:
        file.write(ORG + "\n")
        for place, number in enumerate(ids):
            parent = f"org-{ids[place - 1]:06}" if place or is_ring else ""
            file.write(f"org-{number:06},{AT},Org {number},school,,{parent}\n")
