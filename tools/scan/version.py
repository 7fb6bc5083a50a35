"""The version of the programs, in its one place."""

VERSION = "0.1.0"
