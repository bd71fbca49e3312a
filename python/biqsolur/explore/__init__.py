"""The explorer: a study's market in a browser of this machine, with a time line that can be stopped, looked into and
forked."""
