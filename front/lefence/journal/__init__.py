"""The journal of a hub: the record of every accepted change, on disk before its reply goes out.

Modules in reading order:
- `frames`: the form of the file: a header, then records in checksummed frames.
- `owner`: the lock of a journal, and which hub may write it.
- `segments`: the files of one journal, and the saved states at which segments begin.
- `journal`: opens, repairs, appends and syncs.
- `texts`: copies of the design's files, which a journal needs at its next start.
- `backup`: consistent copies of all these files.

It imports `lefence.base` and must not import any other sub-package.
"""
