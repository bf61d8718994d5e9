"""What is asked of each call while memory is refused to it."""
