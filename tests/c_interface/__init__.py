"""What is asked of the C interface; c_interface.sh says how it is called."""
