"""Ways in and out: positions and areas as other programs write them, read as commands and written from a session."""
