"""What stands beside the tosser of a station: bundles, passwords, netmail, points, and what a sysop does by hand."""
