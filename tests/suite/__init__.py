"""What is tested outside the gate, and how it is run and counted."""
