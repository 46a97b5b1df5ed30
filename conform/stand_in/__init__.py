"""A small emulator of one AHCI port, as the worked example of an adapter, and faults to plant in it."""
