"""The version of the desk: the second number is the last change request that has landed. CHANGELOG.md has what is new."""
VERSION = '0.16'
