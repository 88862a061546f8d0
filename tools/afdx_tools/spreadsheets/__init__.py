"""Tables that people write in spreadsheets: their heads, rows and cells."""
