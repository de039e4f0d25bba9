"""The proved program `herdbook`: one run of it, a session of it, and threads that wait for it."""
