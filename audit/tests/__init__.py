"""Tests of the model: worked values, its shortcuts against the literal definitions, and laws."""
