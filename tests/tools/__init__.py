"""The command line, the launcher, a release, the pages of docs/, memory, and what is drawn by chance."""
