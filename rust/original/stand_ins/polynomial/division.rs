//! Stand-in: polynomial division was not supplied and the index doesn't use it.
