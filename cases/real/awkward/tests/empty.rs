//! No library: the package is its tests.
