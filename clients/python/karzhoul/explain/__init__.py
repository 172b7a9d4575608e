"""Refusals in words: of which class each is, what it means, and which query, member, limit or
object was in its way. What has to be asked for that it asks through a factory. It knows nothing of
how calls are done and how a store is opened."""
