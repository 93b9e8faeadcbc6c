"""What bin/explain is made of: it says for people what `forester verify` prints. Nothing of it is proved."""
