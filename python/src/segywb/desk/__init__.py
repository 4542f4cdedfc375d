"""The desk: a survey in the browser, shown and repaired through the package. ``segywb-desk FILE`` starts it."""
