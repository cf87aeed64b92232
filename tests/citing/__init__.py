"""What the documents cite, and what specs/, src/ and proofs/ declare: for tests/names.py and tests/statements.py."""
