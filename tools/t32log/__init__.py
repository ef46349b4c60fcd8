"""What `t32 sim --log` and `t32 run --log` print, read and told: shared by tools/timeline and tools/letters."""
