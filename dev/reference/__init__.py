"""An independent rewrite of the model in plain Python."""
