"""Records real databases: runs transactions against a server and writes what they did as a log, or as a history."""
