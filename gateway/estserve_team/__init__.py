"""The team's gateway: it stands before one `estserve serve`, knows who speaks, and keeps a record
of each entry.

Nothing here is proved. It changes no state but by asking the proved program, and docs/GATEWAY.md
says what it promises.
"""

HELP = "serve a team: know each person by their Unix user, and keep a record of all that is done"
