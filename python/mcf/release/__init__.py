"""The archive for those who want no toolchain."""
