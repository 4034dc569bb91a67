"""Tests of the program as a user runs it. README.md in this folder says which kind of test goes where."""
