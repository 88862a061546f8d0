"""The report of a replay: rows, sentences, pictures, the page."""
