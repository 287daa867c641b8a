"""A second store: slow, by definitions, and without a line of the first one.

A file has one idea: limits, entries, writes, tables, versions, claims, picker, merging, messages, worker, follower, coordinator, events,
world, refusals, script, lines."""
