"""The version of the package: that of the library that it contains, or in a build that isn't a release, of the build."""

__version__ = "1.0.0"
