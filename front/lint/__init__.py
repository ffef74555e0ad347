"""What is wrong or odd in a configuration or a script, where, and what to write."""
