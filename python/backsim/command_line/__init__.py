"""What the commands of `backsim-tools` share: their words, standard streams and bars, and the files that they write."""
