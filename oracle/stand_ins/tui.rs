//! Stand-in for NanoCore's module `tui`: the four files declare it and use nothing of it.
