"""What people are shown of a unit: a store as tables and as a page, the statements of a prompt with
what they find, a mapping as a diagram, and all of it in a notebook. It changes nothing, and knows
nothing of how a store is opened."""
