"""The version of this package. docs/CHANGELOG.md lists it with the versions of the program, the protocol and the
files."""

VERSION = "0.7.0"
