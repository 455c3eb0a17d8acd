"""The version of the header that the package goes with."""

VERSION = "1.0"
