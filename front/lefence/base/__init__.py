"""The common base of all parts: the protocol, faults, the program and its description, and design files.

Modules in reading order:
- `protocol`: lines and replies of docs/PROTOCOL.md; `tables` has its verbs, and tools/verbs.py generates it.
- `faults`: errors that end a tool, and the frame in which a tool runs.
- `compression`, `atomic_file`: compressed files, and files that are replaced as a whole.
- `input_files`: plain copies of compressed input files.
- `wording`, `columns`: counts and tables for people. `clock`: the time of a hub, which tests can set.
- `program`, `reply_reader`, `async_run`, `progress`: runs of the lefence program, blocking and for asyncio, the pipe of
  its replies, and their progress.
- `description`: the output of `lefence describe`.
- `state_text`: saved states of a floor.
- `slices`: DEF texts with the cells of some teams.
- `design`, `lef`: the sections, statements and words of DEF and LEF files. `nets`: nets, and the points of their pins.

It must not import any other sub-package.
"""
