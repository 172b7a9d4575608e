"""Objects of entities: their classes and attributes, what is known of their values and for how
long, and what callers hand in for them. How lines reach a program they are told by their factory,
and they know nothing of transactions, processes and stores."""
