"""A reader of chip files, written from docs/FORMAT.md and docs/RECOVERY.md alone."""
