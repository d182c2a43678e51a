"""The modules of the commands trace and page."""
