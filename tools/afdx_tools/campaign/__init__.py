"""Campaigns: many reports, on one or more machines."""
