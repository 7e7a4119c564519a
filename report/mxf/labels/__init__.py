"""Labels of SMPTE by name: essence containers, picture codings and sound codings."""
