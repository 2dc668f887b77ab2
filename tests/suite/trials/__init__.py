"""What tests/run hostile tries: hostile modules, texts and lines, with little memory and with none."""
