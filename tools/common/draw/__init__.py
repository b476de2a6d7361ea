"""Pictures of what the commands tree and core write."""
