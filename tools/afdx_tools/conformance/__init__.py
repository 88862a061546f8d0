"""What a recorded switch did, as `afdx conform` judges it, and what can be measured of it."""
