"""What files that are made to hurt cost."""
