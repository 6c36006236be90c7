// Not used by lowering.
