"""The lines that go to the program and come back: how values and calls are spelled, what is read
off a reply at once, JSON as the program takes it, and what is counted of both. It knows nothing of
processes, objects or transactions."""
