"""What the scripts around Coord share. They run `coord` and read its files and lines; they decide nothing of their own."""
