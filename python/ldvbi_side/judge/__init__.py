"""Which numbers of a side are believed, and what lies between them. Plain data goes through the modules in this order,
and none imports a later one:

readings, paces, clock, chain, detours, believed, order, numbers, places

Up to `numbers` words become believed numbers; `places` finds what lies between these. `answer` says what this means."""
