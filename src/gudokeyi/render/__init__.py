"""Text, pictures and pages from what services answer."""
