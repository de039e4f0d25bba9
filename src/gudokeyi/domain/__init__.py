"""Values of the front desk, without input or output."""
