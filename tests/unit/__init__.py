"""Tests of the models, of their lists and of the gate's own programs."""
