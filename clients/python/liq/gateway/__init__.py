"""A market for several callers: who speaks is known, and may do what a table says.

`python3 -m liq.gateway` listens on a Unix socket in front of one run of liq. It is no part of what is proved:
docs/SECURITY.md says what it defends against, docs/GATEWAY.md how it is run. The way of a line:

    door    who is connected, by the system's word; a line, read without waiting for others
    lines   the grammar
    table   what the caller may do
    desk    the client's number, the run, its ends, rotations; `run`, `keeper`
    book    what stands on the disk before a command is passed on, and before its reply goes out
"""
