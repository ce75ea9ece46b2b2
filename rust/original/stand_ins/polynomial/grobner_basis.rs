//! Stand-in: the classical Buchberger algorithm was not supplied and the index doesn't use it.
