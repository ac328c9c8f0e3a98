"""lefence-view: a page on which many people see one floorplan, as it is now.

Modules in reading order:
- `main`: the options, and what runs.
- `cells`: the table of all cells, and its bytes for the page. `design`: what the page shows besides cells.
- `board`: the state that pages see; each change of it is an event. `events`: the last events, and who waits for them.
- `feed`: keeps the board up to date from the query sockets of a hub. `changes`: which cells a line of a change moves.
- `work`: the lines that pages send to the sockets of teams.
- `server`: the HTTP server, with its checks. `page` has the files of the page.
- `snapshot`: the picture of the board, without a browser.

It imports `lefence.base`, the client library and `lefence.view`, whose colours, scene and texts it shares. Of a hub it
uses the sockets alone.
"""
