"""What the scripts around the program share: journals read, followed and asked."""
