"""Sweeps: a base study under many keys and with changed values, by Snakemake.

`plan` reads a configuration and writes the study of each point; `run` carries out one job, a few points under a few
keys; `summary` says for each point, branch and measure what the keys say together; `page` draws that. sweep/Snakefile
calls them, and docs/SWEEPS.md is for whoever runs a sweep.
"""
