"""A release: the gate with a record, the documents as HTML, and PROOF."""
