"""lefence-push: sends recorded commands, or the places of a DEF text, to a running hub.

Modules in reading order:
- `main`: the tool.
- `records`: the recorded commands of a journal or of a repair, with their replies.
- `rebased`: sends them to a team that others have changed since.
- `places`, `order_moves`: the commands that bring cells to the places of a DEF text, in an order that breaks no rule.
"""
