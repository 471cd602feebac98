"""What the tools beside the server share."""
