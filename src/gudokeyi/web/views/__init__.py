"""What pages show: values for the templates."""
