"""What tools/package makes of the last commit and its proved program: an archive, a wheel, a Debian package."""
