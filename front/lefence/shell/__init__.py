"""lefence-shell: commands typed by hand, for a hub or for a program that the shell starts.

Modules in reading order:
- `main`: the tool: its options, the terminal, and lines that pass unchanged.
- `shell`: executes commands over one connection. `commands`: their fields, help, and what completes them.
- `words`: results in words. `lengths`: database units or microns. `history`: the last lines with their replies.
- `hints`: what helps after a refusal.

Of the hub it imports only the tables of its status.
"""
