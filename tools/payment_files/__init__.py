"""Parts of `tools/payment-file`."""
