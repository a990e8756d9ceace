"""The shell for stores of natix, in parts: `natix-shell` puts them together."""
