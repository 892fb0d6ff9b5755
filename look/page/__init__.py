"""The page of a run (`view`) and the tree of a directory (`tree`)."""
