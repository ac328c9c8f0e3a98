"""The hub: one program or several, many clients, a journal of all changes.

Modules in reading order:
- `main`: the tool lefence-hub: options, sockets, signals.
- `hub`: the main loop, from a client's line to the journal and back.
- `shards`, `slice_store`: the programs, each with its teams, and the DEF texts that they load.
- `journal_writer`: appends to the journal in a thread, with one sync for all batches that wait.
- `connection`, `client_pool`: one connected client; all clients, and their limits.
- `line_queue`: whose line is executed next. `spool`: replies that a client has not read.
- `sockets`, `acceptor`: binds the sockets, with their groups and modes; accepts connections, one user after the other.
- `query_sockets`: clients of the query sockets, and the lines that they may send. `recent_changes` and
  `uncommitted_places` answer two of them, for pages that show a team.
- `replay_process`: the program `lefence replay` as a child process of the hub. It serves no socket.
- `checkpoints`, `exporter`: saved states and exports, made by programs at the side.
- `session_slots`: another number of session slots for a journal with changes.
- `operator`: what the operator does at run time, and savepoints.
- `status`, `status_table`, `metrics`, `latency`, `log_limit`, `notify`: what an operator and systemd see.
- `status_view`: the options of lefence-hub that print the status.

It imports `lefence.base`, the client library and the journal. Only `main` imports a tool: the warnings of
`lefence.prepare`.
"""
