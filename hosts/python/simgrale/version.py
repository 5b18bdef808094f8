"""The version of the library that this package is written for. tests/hosts/python compares it with include/icotable.h."""

VERSION = "0.24.0"
