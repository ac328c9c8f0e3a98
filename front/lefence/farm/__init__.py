"""lefence-farm: one job for each team of a design, each with a hub of its own.

Modules in reading order:
- `main`: the tool, which starts the jobs by Slurm, by LSF or here.
- `runs`: what a job does, and how the journals of all jobs are collected.
- `merge`: puts the exported texts of slices together.
"""
