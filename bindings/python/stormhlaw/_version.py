"""The version, which the build of the package reads from here too."""

__version__ = "0.7.0"
