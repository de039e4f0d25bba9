"""The book in a browser: for one person on this machine, or for several with accounts."""
