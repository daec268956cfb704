"""What changes a whole function after its parts are translated."""
