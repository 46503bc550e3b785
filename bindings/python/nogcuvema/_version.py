"""The version of this package: that of the header bindings/c/nogcuvema.h. A test compares the two."""
VERSION = "1.1.0"
