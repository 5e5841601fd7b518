"""Tests of the client and of the documents, against a `tabletd`: scripts/tabletd, which runs the build that TABLETD
names."""
