"""The parts of `tools/bank-file`: from a bank's statement to the office's bank file."""
