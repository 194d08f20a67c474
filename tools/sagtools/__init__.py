"""What sag-plot and sag-experiment are made of."""
