"""Judges AHCI controllers by random driver programs: conform/controller/README.md."""
