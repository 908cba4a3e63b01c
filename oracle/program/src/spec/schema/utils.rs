//! Stand-in for helpers, none of which is used.
