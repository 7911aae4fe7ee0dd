"""Tests of the Python module. Expected answers come from the scope's worked
cases and from the plain Python of `murmur`, `shards` and `manifests` here,
which follows the papers and calls nothing of the module."""
