"""Proves a program of crates.txt and builds it, for build.py."""
