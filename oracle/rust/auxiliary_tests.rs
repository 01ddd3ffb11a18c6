//! Child module of `auxiliary`: nothing there is private.
