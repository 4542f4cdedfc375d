"""A library of files: ``segywb-library`` scans, reports, mends and audits many SEG-Y files, with an SQLite database for what it finds."""
