"""Makes what others install, for `package`: the Debian package, the wheel, and an archive of both parts."""
