#!/usr/bin/python3
"""Writes 300 users in Compact Protocol, as a program of one's own would (docs/GUIDE.md).

usage: thrift --gen py users.thrift && ./write_users.py > users.compact
"""
import sys

sys.path.insert(0, "gen-py")

from thrift.protocol.TCompactProtocol import TCompactProtocol
from thrift.transport.TTransport import TMemoryBuffer
from users.ttypes import Plan, User, Users


def user(number):
    """A user of that number."""
    return User(
        id=number,
        name="user%06d" % number,
        mail="user%06d@example.com" % number if number % 2 == 0 else None,
        plan=[Plan.FREE, Plan.TEAM, Plan.FIRM][number % 3],
        tags=["red", "green"][: number % 3],
        scores={"art": number % 7, "math": number % 100},
        active=number % 10 != 0,
    )


def main():
    buffer = TMemoryBuffer()
    Users(release=7, users={n: user(n) for n in range(1, 301)}).write(TCompactProtocol(buffer))
    sys.stdout.buffer.write(buffer.getvalue())


main()
