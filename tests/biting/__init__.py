"""The wrong edits that the prover must refuse: what an edit is, how the prover is asked, and where it refused."""
