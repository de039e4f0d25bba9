"""English texts that stand in tables, by the members of enums that they name; German and French are in `locale`."""
