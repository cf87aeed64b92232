"""The product compared with the independent program, input by input."""
