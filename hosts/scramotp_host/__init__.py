"""Serves logins by `scramotp hall`: what every program that holds the connections to clients would otherwise write for itself.

`hall` is one run of that program with its log. `host` is one run after another, for as long as the service lasts. docs/DOORS.md has an
example, and the doors that stand on this package. Python 3.11 and its standard library are all that it needs.
"""
