//! Stand-in: the printer for CoCoA was not supplied and the index doesn't use it.
