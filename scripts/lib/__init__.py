"""Modules that only other scripts use."""
