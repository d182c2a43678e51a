"""Tests of the commands trace and page."""
