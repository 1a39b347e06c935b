"""The worked rows: tables of requests, and the bytes of their replies.

A line `# NAME` names the rows below it. A row has a method, the letter of a key and a target; the status and the body
of the reply; of a PUT also its go.mod, its zip and further lines of its head. A PUT without a go.mod sends `module
PATH` and a newline. A stream is a row too: its bytes, and each of its replies, with `&` between them. `;` is the end of
a line: CR LF in heads and streams, a newline in bodies.
"""

import itertools
import re

from lib.keys import KEYS
from lib.messages import Exchange, get, put, reply
from lib.program import columns

REQUESTS = """
# empty-modules
GET B -/modules | 200
# first-publish
PUT A example.com/lib/@v/v1.0.0 | 201 published;
GET A example.com/lib/@v/v1.0.0.zip | 200
GET A example.com/lib/@v/v1.0.0.mod | 200 module example.com/lib;
GET A example.com/lib/@v/v1.0.0.info | 200 {"Version":"v1.0.0"}
# publish-again
PUT A example.com/lib/@v/v1.0.0 | 200 already published;
PUT A example.com/lib/@v/v1.0.0 | 409 conflict; | | Z
# equal-404s
GET B example.com/lib/@v/v1.0.0.zip | 404 not found;
GET N example.com/lib/@v/v1.0.0.zip | 404 not found;
GET A example.com/lib/@v/v9.0.0.zip | 404 not found;
GET B example.com/lib/@v/list | 404 not found;
GET B example.com/lib/@latest | 404 not found;
GET N -/modules | 404 not found;
# team-under-common
PUT C example.com/x/@v/v1.0.0 | 201 published; | | X
GET A example.com/x/@v/v1.0.0.mod | 200 module example.com/x;
PUT A example.com/x/@v/v1.0.0 | 409 conflict; | | Y
PUT A example.com/x/@v/v1.0.0 | 200 already published; | | X
# own-before-common
PUT A example.com/y/@v/v1.0.0 | 201 published; | | a
PUT C example.com/y/@v/v1.0.0 | 201 published; | | c
GET A example.com/y/@v/v1.0.0.zip | 200 a
GET B example.com/y/@v/v1.0.0.zip | 200 c
# escaped-path
PUT A example.com/!lib/@v/v1.0.0 | 201 published;
GET A example.com/%21lib/@v/v1.0.0.mod | 200 module example.com/Lib;
GET A example.com/Lib/@v/v1.0.0.mod | 404 not found;
GET A example.com/!1/@v/v1.0.0.mod | 404 not found;
# path-calls
GET A example.com%2Flib/%40v/v1.0.0.mod | 200 module example.com/lib;
GET A example.com/lib%2/@v/v1.0.0.mod | 404 not found;
# major-versions
PUT A example.com/lib/@v/v2.0.0 | 422 major-mismatch;
PUT A example.com/lib/@v/v2.0.0+incompatible | 201 published;
PUT A example.com/lib/@v/v2.1.0+incompatible | 422 incompatible-gomod; | module example.com/lib;require example.com/x \
v1.0.0;
GET A example.com/lib/@v/v2.0.0%2Bincompatible.mod | 200 module example.com/lib;
# prerelease-order
PUT A example.com/rc/@v/v1.0.0-rc.10 | 201 published;
PUT A example.com/rc/@v/v1.0.0 | 201 published;
PUT A example.com/rc/@v/v1.0.0-rc.2 | 201 published;
GET A example.com/rc/@v/list | 200 v1.0.0-rc.2;v1.0.0-rc.10;v1.0.0;
# pseudo-only
PUT A example.com/ps/@v/v0.0.0-20240101000000-aaaaaaaaaaaa | 201 published;
PUT A example.com/ps/@v/v0.0.1-0.20230101000000-bbbbbbbbbbbb | 201 published;
GET A example.com/ps/@v/list | 200
GET A example.com/ps/@latest | 200 {"Time":"2024-01-01T00:00:00Z","Version":"v0.0.0-20240101000000-aaaaaaaaaaaa"}
# retracted-interval
PUT A example.com/ra/@v/v1.0.0 | 201 published;
PUT A example.com/ra/@v/v1.1.0 | 201 published; | module example.com/ra;retract [v1.0.5, v1.1.0];
GET A example.com/ra/@latest | 200 {"Version":"v1.0.0"}
GET A example.com/ra/@v/list | 200 v1.0.0;v1.1.0;
GET A example.com/ra/@v/v1.1.0.zip | 200
# prerelease-retracts-nothing
PUT A example.com/rb/@v/v1.1.0 | 201 published;
PUT A example.com/rb/@v/v1.2.0-rc.1 | 201 published; | module example.com/rb;retract v1.1.0;
GET A example.com/rb/@latest | 200 {"Version":"v1.1.0"}
# self-retraction
PUT A example.com/rd/@v/v1.0.0 | 201 published; | module example.com/rd;retract v1.0.0;
GET A example.com/rd/@latest | 404 not found;
GET A example.com/rd/@v/list | 200 v1.0.0;
# refused-publishes
PUT A example.com/q/@v/v1.0.0 | 422 bad-time; | | | Version-Time: 2024-02-30T00:00:00Z;
PUT R example.com/q/@v/v1.0.0 | 403 forbidden;
# bad-gomod-line
PUT A example.com/bad/@v/v1.0.0 | 422 bad-gomod 4; | module example.com/bad;;require (;example.com/x 1.0.0;);
# go-alone
PUT A example.com/bad/@v/v1.0.0 | 422 bad-gomod 0; | go 1.21rc1;
# another path in the go.mod
PUT A example.com/bad/@v/v1.0.0 | 422 module-path; | module example.com/lib;
# modules-of-a-team
GET B -/modules | 200 example.com/x;example.com/y;
GET A -/modules | 200 example.com/Lib;example.com/lib;example.com/ps;example.com/ra;example.com/rb;example.com/rc;\
example.com/rd;example.com/x;example.com/y;
# unreadable: an empty element, and a version that is not canonical
PUT A example.com//q/@v/v1.0.0 | 404 not found; | module example.com/q;
PUT A example.com/q/@v/1.0.0 | 404 not found;
# near-pseudo
PUT A example.com/near/@v/v0.0.0-20240230000000-aaaaaaaaaaaa | 201 published;
PUT A example.com/near/@v/v1.0.0-0.20230101000000-bbbbbbbbbbbb | 201 published;
GET A example.com/near/@v/list | 200 v0.0.0-20240230000000-aaaaaaaaaaaa;v1.0.0-0.20230101000000-bbbbbbbbbbbb;
GET A example.com/near/@latest | 200 {"Version":"v1.0.0-0.20230101000000-bbbbbbbbbbbb"}
# publish-with-time
PUT A example.com/t/@v/v1.0.0 | 201 published; | | | Version-Time: 2024-02-29T23:59:59Z;
GET A example.com/t/@v/v1.0.0.info | 200 {"Time":"2024-02-29T23:59:59Z","Version":"v1.0.0"}
# same-without-time
PUT A example.com/t/@v/v1.0.0 | 409 conflict;
# time-against-stamp
PUT A example.com/t/@v/v0.0.0-20240101000000-aaaaaaaaaaaa | 422 time-mismatch; | | | Version-Time: 2024-01-01T00:00:01Z;
# two times, and an empty one
PUT A example.com/t/@v/v1.1.0 | 422 bad-time; | | | Version-Time: 2024-01-01T00:00:00Z;version-time: \
2024-01-01T00:00:00Z;
PUT A example.com/t/@v/v1.1.0 | 422 bad-time; | | | Version-Time:;
# a PUT whose body ends one byte early
PUT /k/alphakey00000001/example.com/q/@v/v1.0.0 HTTP/1.1;Mod-Length: 21;Content-Length: 21;;module example.com/q | \
400 bad request;
"""

# on the store that REQUESTS leave, with the group platform and its teams gamma and delta
GROUP_REQUESTS = """
# a group that sees common alone
GET P -/modules | 200 example.com/x;example.com/y;
GET M -/modules | 200 example.com/x;example.com/y;
GET M example.com/y/@v/v1.0.0.zip | 200 c
GET M example.com/lib/@v/v1.0.0.zip | 404 not found;
# group-publishes
PUT P example.com/g/@v/v1.0.0 | 201 published; | | g
# group-seen-by-members
GET M example.com/g/@v/v1.0.0.zip | 200 g
GET D example.com/g/@v/v1.0.0.zip | 200 g
GET A example.com/g/@v/v1.0.0.zip | 404 not found;
GET C example.com/g/@v/v1.0.0.zip | 404 not found;
GET B example.com/g/@v/list | 404 not found;
GET N example.com/g/@v/v1.0.0.zip | 404 not found;
# member-under-group
PUT M example.com/g/@v/v1.0.0 | 409 conflict; | | m
# a member with the bytes of its group, and with another time
PUT M example.com/g/@v/v1.0.0 | 200 already published; | | g
PUT M example.com/g/@v/v1.0.0 | 409 conflict; | | g | Version-Time: 2024-01-01T00:00:00Z;
# a team of no group
GET A example.com/g/@v/v1.0.0.mod | 404 not found;
GET A example.com/g/@v/list | 404 not found;
GET A -/gosum/example.com/g/@v/v1.0.0 | 404 not found;
PUT A example.com/g/@v/v1.0.0 | 201 published; | | a
GET A example.com/g/@v/v1.0.0.zip | 200 a
PUT A example.com/g/@v/v1.0.0 | 409 conflict; | | g
GET N example.com/g/@v/v1.0.0.zip | 404 not found;
# which changes nothing for the group
GET M example.com/g/@v/v1.0.0.zip | 200 g
# a group under common
PUT P example.com/x/@v/v1.0.0 | 409 conflict; | | p
PUT P example.com/x/@v/v1.0.0 | 200 already published; | | X
PUT D example.com/x/@v/v1.0.0 | 409 conflict; | | d
# chain-publishes
PUT M example.com/h/@v/v1.0.0 | 201 published; | | m
PUT P example.com/h/@v/v1.0.0 | 201 published; | | h
PUT C example.com/h/@v/v1.0.0 | 201 published; | | c
# chain-view
GET M example.com/h/@v/v1.0.0.zip | 200 m
GET D example.com/h/@v/v1.0.0.zip | 200 h
GET P example.com/h/@v/v1.0.0.zip | 200 h
GET A example.com/h/@v/v1.0.0.zip | 200 c
GET C example.com/h/@v/v1.0.0.zip | 200 c
# each of them again
PUT M example.com/h/@v/v1.0.0 | 200 already published; | | m
PUT M example.com/h/@v/v1.0.0 | 409 conflict; | | h
PUT D example.com/h/@v/v1.0.0 | 200 already published; | | h
PUT D example.com/h/@v/v1.0.0 | 409 conflict; | | c
PUT P example.com/h/@v/v1.0.0 | 409 conflict; | | m
PUT A example.com/h/@v/v1.0.0 | 200 already published; | | c
# a team's version, which neither its group nor another team sees
PUT D example.com/s/@v/v1.0.0 | 201 published; | | d
GET D example.com/s/@v/v1.0.0.zip | 200 d
GET M example.com/s/@v/v1.0.0.zip | 404 not found;
GET P example.com/s/@v/v1.0.0.zip | 404 not found;
GET M example.com/s/@v/v1.0.0.mod | 404 not found;
GET M example.com/s/@v/v1.0.0.info | 404 not found;
GET M -/gosum/example.com/s/@v/v1.0.0 | 404 not found;
GET M example.com/s/@v/list | 404 not found;
GET M example.com/s/@latest | 404 not found;
PUT M example.com/s/@v/v1.0.0 | 201 published; | | m
PUT P example.com/s/@v/v1.0.0 | 201 published; | | p
GET D example.com/s/@v/v1.0.0.zip | 200 d
# lists, which have each version once, and the latest
PUT C example.com/l/@v/v1.9.0 | 201 published;
PUT P example.com/l/@v/v1.10.0 | 201 published;
PUT M example.com/l/@v/v1.2.0 | 201 published;
PUT D example.com/l/@v/v1.3.0-rc.1 | 201 published;
PUT M example.com/l/@v/v0.0.0-20240101000000-aaaaaaaaaaaa | 201 published;
GET M example.com/l/@v/list | 200 v1.2.0;v1.9.0;v1.10.0;
GET D example.com/l/@v/list | 200 v1.3.0-rc.1;v1.9.0;v1.10.0;
GET P example.com/l/@v/list | 200 v1.9.0;v1.10.0;
GET A example.com/l/@v/list | 200 v1.9.0;
GET M example.com/h/@v/list | 200 v1.0.0;
GET M example.com/l/@latest | 200 {"Version":"v1.10.0"}
GET A example.com/l/@latest | 200 {"Version":"v1.9.0"}
GET D example.com/l/@v/v1.2.0.info | 404 not found;
GET M example.com/l/@v/v0.0.0-20240101000000-aaaaaaaaaaaa.info | 200 \
{"Time":"2024-01-01T00:00:00Z","Version":"v0.0.0-20240101000000-aaaaaaaaaaaa"}
# the group's highest version retracts for its teams
PUT P example.com/l/@v/v1.11.0 | 201 published; | module example.com/l;retract [v1.10.0, v1.11.0];
GET P example.com/l/@latest | 200 {"Version":"v1.9.0"}
GET M example.com/l/@latest | 200 {"Version":"v1.9.0"}
GET C example.com/l/@latest | 200 {"Version":"v1.9.0"}
GET D example.com/l/@v/list | 200 v1.3.0-rc.1;v1.9.0;v1.10.0;v1.11.0;
# one version on three shelves: gamma's own retracts nothing
PUT M example.com/r/@v/v1.1.0 | 201 published;
PUT P example.com/r/@v/v1.1.0 | 201 published; | module example.com/r;retract v1.1.0;
PUT C example.com/r/@v/v1.1.0 | 201 published; | module example.com/r;retract [v1.0.0, v1.1.0];
PUT C example.com/r/@v/v1.0.0 | 201 published;
GET M example.com/r/@latest | 200 {"Version":"v1.1.0"}
GET D example.com/r/@latest | 200 {"Version":"v1.0.0"}
GET P example.com/r/@latest | 200 {"Version":"v1.0.0"}
GET A example.com/r/@latest | 404 not found;
# times and sums
PUT P example.com/t/@v/v1.5.0 | 201 published; | | | Version-Time: 2024-02-29T23:59:59Z;
GET M example.com/t/@v/v1.5.0.info | 200 {"Time":"2024-02-29T23:59:59Z","Version":"v1.5.0"}
GET D example.com/t/@latest | 200 {"Time":"2024-02-29T23:59:59Z","Version":"v1.5.0"}
GET A example.com/t/@v/v1.5.0.info | 404 not found;
GET M -/gosum/example.com/t/@v/v1.5.0 | 200 example.com/t v1.5.0/go.mod h1:4dgp24NRz8ybNwCIaamZKrYhbHMjugRv5LSi2una/Ks=;
GET A -/gosum/example.com/t/@v/v1.5.0 | 404 not found;
# modules, each once
GET M -/modules | 200 example.com/g;example.com/h;example.com/l;example.com/r;example.com/s;example.com/t;\
example.com/x;example.com/y;
GET D -/modules | 200 example.com/g;example.com/h;example.com/l;example.com/r;example.com/s;example.com/t;\
example.com/x;example.com/y;
GET P -/modules | 200 example.com/g;example.com/h;example.com/l;example.com/r;example.com/s;example.com/t;\
example.com/x;example.com/y;
GET B -/modules | 200 example.com/h;example.com/l;example.com/r;example.com/x;example.com/y;
GET C -/modules | 200 example.com/h;example.com/l;example.com/r;example.com/x;example.com/y;
"""
# on a new store with that group and these teams
CHAIN_REQUESTS = """
# group-publishes
PUT P example.com/g/@v/v1.0.0 | 201 published; | | g
# group-seen-by-members
GET M example.com/g/@v/v1.0.0.zip | 200 g
GET D example.com/g/@v/v1.0.0.zip | 200 g
GET A example.com/g/@v/v1.0.0.zip | 404 not found;
GET C example.com/g/@v/v1.0.0.zip | 404 not found;
# member-under-group
PUT M example.com/g/@v/v1.0.0 | 409 conflict; | | m
PUT M example.com/g/@v/v1.0.0 | 200 already published; | | g
# chain-publishes
PUT M example.com/h/@v/v1.0.0 | 201 published; | | m
PUT P example.com/h/@v/v1.0.0 | 201 published; | | h
PUT C example.com/h/@v/v1.0.0 | 201 published; | | c
# chain-view
GET M example.com/h/@v/v1.0.0.zip | 200 m
GET D example.com/h/@v/v1.0.0.zip | 200 h
GET P example.com/h/@v/v1.0.0.zip | 200 h
GET A example.com/h/@v/v1.0.0.zip | 200 c
# chain-lists
PUT D example.com/h/@v/v1.1.0 | 201 published; | | d
PUT P example.com/h/@v/v1.2.0 | 201 published; | module example.com/h;retract [v1.1.0, v1.2.0]; | p
GET M example.com/h/@v/list | 200 v1.0.0;v1.2.0;
GET D example.com/h/@v/list | 200 v1.0.0;v1.1.0;v1.2.0;
GET A example.com/h/@v/list | 200 v1.0.0;
GET M example.com/h/@latest | 200 {"Version":"v1.0.0"}
GET D example.com/h/@latest | 200 {"Version":"v1.0.0"}
PUT D example.com/h/@v/v1.3.0 | 201 published;
GET D example.com/h/@latest | 200 {"Version":"v1.3.0"}
GET M example.com/h/@latest | 200 {"Version":"v1.0.0"}
GET P example.com/h/@v/list | 200 v1.0.0;v1.2.0;
PUT D example.com/own/@v/v1.0.0 | 201 published;
GET M -/modules | 200 example.com/g;example.com/h;
GET D -/modules | 200 example.com/g;example.com/h;example.com/own;
GET P -/modules | 200 example.com/g;example.com/h;
GET A -/modules | 200 example.com/h;
GET M -/gosum/example.com/g/@v/v1.0.0 | 200 example.com/g v1.0.0/go.mod h1:OJ1klDEevVKLkxk3UnEX/d9Uk3DpmjQKYxb0X6M2RS0=;
GET A -/gosum/example.com/g/@v/v1.0.0 | 404 not found;
"""
# on that store too
MEMBER_REQUESTS = """
# a member and its group
PUT M example.com/h/@v/v1.0.0 | 201 published; | | m
PUT P example.com/h/@v/v1.0.0 | 201 published; | | h
PUT D example.com/h/@v/v1.0.0 | 409 conflict; | | d
GET M example.com/h/@v/v1.0.0.zip | 200 m
GET D example.com/h/@v/v1.0.0.zip | 200 h
GET P example.com/h/@v/v1.0.0.zip | 200 h
GET A example.com/h/@v/v1.0.0.zip | 404 not found;
"""
# on a store of alpha in the group platform, of beta and of common, which has a version of alpha and one of its own
SWEPT = """
# while a file fails, each of these gets this reply or a 503
PUT A example.com/lib/@v/v1.1.0 | 201 published; | | zip
GET A example.com/lib/@v/v1.1.0.zip | 200 zip
GET B example.com/lib/@v/v1.1.0.zip | 404 not found;
PUT C example.com/new/@v/v1.0.0 | 201 published; | | zip
PUT A example.com/lib/@v/v1.1.0 | 200 already published; | | zip
PUT B example.com/lib/@v/v1.0.0 | 201 published; | | other
GET A example.com/new/@v/list | 200 v1.0.0;
GET A -/modules | 200 example.com/lib;example.com/new;example.com/x;
"""
# each is asked with in a run of its own
STREAMS = """
# 64 headers
GET / HTTP/1.1;<64 headers>;GET / HTTP/1.1;; | 404 not found; & 404 not found;
# bad-fronts, each with a message behind it
GET / HTTP/1.1;<65 headers>;GET / HTTP/1.1;; | 400 bad request;
GET / HTTP/1.1;Content-Length: 17825793;;GET / HTTP/1.1;; | 413 too large;
GET / HTTP/1.1;Content-Length: 1;Content-Length: 1;;GET / HTTP/1.1;; | 400 bad request;
# refused-publishes: a body that ends one byte early
PUT /k/alphakey00000001/example.com/q/@v/v1.0.0 HTTP/1.1;Mod-Length: 23;Content-Length: 23;;module example.com/q; | \
400 bad request;
GET /k/alphakey00000001/example.com/q/@v/v1.0.0.mod HTTP/1.1;; | 404 not found;
# bad-mod-lengths: absent, doubled, with a leading zero, above the body; each with a message behind it
PUT /k/alphakey00000001/example.com/q/@v/v1.0.0 HTTP/1.1;Content-Length: 22;;module example.com/q;GET / HTTP/1.1;; | \
400 bad mod-length; & 404 not found;
PUT /k/alphakey00000001/example.com/q/@v/v1.0.0 HTTP/1.1;Mod-Length: 22;Mod-Length: 22;Content-Length: 22;;module \
example.com/q;GET / HTTP/1.1;; | 400 bad mod-length; & 404 not found;
PUT /k/alphakey00000001/example.com/q/@v/v1.0.0 HTTP/1.1;Mod-Length: 022;Content-Length: 22;;module example.com/q;GET \
/ HTTP/1.1;; | 400 bad mod-length; & 404 not found;
PUT /k/alphakey00000001/example.com/q/@v/v1.0.0 HTTP/1.1;Mod-Length: 23;Content-Length: 22;;module example.com/q;GET \
/ HTTP/1.1;; | 400 bad mod-length; & 404 not found;
# an empty line behind a message
GET / HTTP/1.1;;; | 404 not found; & 400 bad request;
"""

SUMS = """
# gosum-line
PUT A example.com/lib/@v/v1.0.0 | 201 published;
GET A -/gosum/example.com/lib/@v/v1.0.0 | 200 example.com/lib v1.0.0/go.mod \
h1:4OAnUP7RpKJ0hg7ydNi+A/luktLxx7xSrw0c+FeAtlc=;
GET A example.com/lib/@v/v1.0.0.mod | 200 module example.com/lib;
GET A -/go%73um/example.com%2Flib/%40v/v1.0.0 | 200 example.com/lib v1.0.0/go.mod \
h1:4OAnUP7RpKJ0hg7ydNi+A/luktLxx7xSrw0c+FeAtlc=;
# who gets a sum
GET R -/gosum/example.com/lib/@v/v1.0.0 | 200 example.com/lib v1.0.0/go.mod \
h1:4OAnUP7RpKJ0hg7ydNi+A/luktLxx7xSrw0c+FeAtlc=;
GET B -/gosum/example.com/lib/@v/v1.0.0 | 404 not found;
PUT C example.com/x/@v/v1.0.0 | 201 published;
GET B -/gosum/example.com/x/@v/v1.0.0 | 200 example.com/x v1.0.0/go.mod h1:cq1Wlc5Q/3TKMd9Nt+I/D/H5kAJrHbzSCzH20/f7O0w=;
# an unknown key, a version that is not there, and targets that ask for no sum
GET N -/gosum/example.com/lib/@v/v1.0.0 | 404 not found;
GET A -/gosum/example.com/lib/@v/v9.0.0 | 404 not found;
GET A -/gosum/example.com/lib/@v/v1.0.0.mod | 404 not found;
GET A %2D/gosum/example.com/lib/@v/v1.0.0 | 404 not found;
GET A -/gosum/example.com/lib/@latest | 404 not found;
PUT A -/gosum/example.com/lib/@v/v1.0.0 | 404 not found; | module example.com/lib;
# an escaped path, and a version that ends as a file does
PUT A example.com/!lib/@v/v1.0.0-a.mod | 201 published;
GET A -/gosum/example.com/!lib/@v/v1.0.0-a.mod | 200 example.com/Lib v1.0.0-a.mod/go.mod \
h1:QCLwax7NYDdQrhhEO5lFRKWPJgpb1/PsD0HlPYhcfdU=;
GET A -/gosum/example.com/Lib/@v/v1.0.0-a.mod | 404 not found;
"""


def end_lines(text: str, end: str = "\n") -> bytes:
    """Returns the bytes of a column, in which `;` is the end of a line."""
    return text.replace(";", end).encode()


def read_request(asked: str, gomod: str, zip_text: str, lines: str) -> bytes:
    """Returns the bytes that a row asks with."""
    if " HTTP/1.1" in asked:
        return re.sub(rb"<(\d+) headers>", lambda count: b"a:b\r\n" * int(count[1]), end_lines(asked, "\r\n"))
    method, letter, target = asked.split()
    if method == "GET":
        return get(target, KEYS[letter])
    path, version = target.split("/@v/")
    own = "module " + re.sub("!(.)", lambda escaped: escaped[1].upper(), path) + ";"
    head, _, body = put(path, version, end_lines(gomod or own), zip_text.encode(), KEYS[letter]).partition(b"\r\n\r\n")
    return head + b"\r\n" + end_lines(lines, "\r\n") + b"\r\n" + body


def read_reply(wanted: str, asked: str) -> bytes:
    """Returns the bytes of the reply that a row names."""
    status, _, body = wanted.strip().partition(" ")
    return reply(int(status), end_lines(body), asked)


def read_rows(table: str, is_alone: bool = False) -> list[Exchange]:
    """Returns the rows of a table.

    If `is_alone`, only those under names whose rows all ask with alpha's key or with one that no shelf has."""
    rows: list[tuple[str, str]] = []
    name = ""
    for line in filter(None, table.split("\n")):
        if line.startswith("# "):
            name = line[2:]
        else:
            rows.append((name, line))
    named = [list(group) for _, group in itertools.groupby(rows, lambda row: row[0])]
    return [
        read_row(*row)
        for group in named
        if not is_alone or all(line.split()[1] in "AN" for _, line in group)
        for row in group
    ]


def read_row(name: str, line: str) -> Exchange:
    asked, wanted, *rest = columns(line, 5)
    replies = b"".join(read_reply(one, asked) for one in wanted.split("&"))
    return Exchange(f"{name}: {line}", [read_request(asked, *rest)], replies)
